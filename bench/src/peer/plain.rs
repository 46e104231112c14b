//! The plain run: each fork a call.

use super::command::*;
use super::image::{read, Program};
use super::run::Fed;
use super::window::Window;
use super::PlainAnswer;

struct Plain<'a, T> {
    program: &'a Program,
    parameters: &'a [u32; 32],
    memory: &'a mut [u32; 992],
    left: u32,
    trace: T,
}

/// The commands carried out, how many routines deep the run went, the root being 1, and the loads from a read span.
#[derive(Clone, Copy, Debug, Default, PartialEq, Eq)]
pub struct Measure {
    pub commands: u64,
    pub depth: u32,
    pub shared: u64,
}

/// What hears of a run's commands and routines; `()` does not, so that a run with it costs nothing more.
trait Trace: Default {
    fn command(&mut self);
    fn routine(&mut self, depth: u32);
    fn shared(&mut self);
}

impl Trace for () {
    #[inline(always)]
    fn command(&mut self) {}
    #[inline(always)]
    fn routine(&mut self, _depth: u32) {}
    #[inline(always)]
    fn shared(&mut self) {}
}

impl Trace for Measure {
    fn command(&mut self) {
        self.commands += 1;
    }
    fn routine(&mut self, depth: u32) {
        self.depth = self.depth.max(depth);
    }
    fn shared(&mut self) {
        self.shared += 1;
    }
}

pub fn plain(fed: Fed, memory: &mut [u32]) -> PlainAnswer {
    traced::<()>(fed, memory).0
}

/// The plain run with its measure; of a refused one that is zero.
pub fn measured(fed: Fed, memory: &mut [u32]) -> (PlainAnswer, Measure) {
    traced(fed, memory)
}

#[inline(always)]
fn traced<T: Trace>(fed: Fed, memory: &mut [u32]) -> (PlainAnswer, T) {
    let refused = |number| (PlainAnswer::Stopped { number, units: 0 }, T::default());
    let mut program = Program::blank();
    if let Err(number) = read(fed.image, &mut program) {
        return refused(number);
    }
    if fed.arguments.len() != program.row(0).arguments as usize {
        return refused(24);
    }
    let (Ok(parameters), Ok(memory)) = (fed.parameters.try_into(), memory.try_into()) else {
        return refused(25);
    };
    let mut slots = [0; 16];
    for (slot, argument) in slots.iter_mut().zip(fed.arguments) {
        *slot = *argument;
    }
    let mut run = Plain { program: &program, parameters, memory, left: fed.allowance, trace: T::default() };
    let ended = run.routine(program.row(0).start, &mut slots, &mut { Window::ROOT }, 1);
    let units = fed.allowance - run.left;
    let answer = match ended {
        Ok(result) => PlainAnswer::Finished { result, units },
        Err(number) => PlainAnswer::Stopped { number, units },
    };
    (answer, run.trace)
}

#[inline(always)]
fn free<const N: usize>(pending: u32, asked: [u8; N]) -> Result<(), u8> {
    if waits(pending, asked) { Err(9) } else { Ok(()) }
}

impl<T: Trace> Plain<'_, T> {
    /// A command's weight is charged once its tests have passed; 22 is the first of them.
    #[inline(always)]
    fn afford(&self, weight: u32) -> Result<(), u8> {
        if weight > self.left { Err(22) } else { Ok(()) }
    }

    /// Every command carried out is charged once.
    #[inline(always)]
    fn charge(&mut self, weight: u32) {
        self.left -= weight;
        self.trace.command();
    }

    /// The word that a load reads, or 10.
    #[inline(always)]
    fn loaded(&mut self, window: &Window, address: u32) -> Result<u32, u8> {
        if let Some(parameter) = self.parameters.get(address as usize) {
            return Ok(*parameter);
        }
        if !window.has(address) {
            if !window.may_read(address) {
                return Err(10);
            }
            self.trace.shared();
        }
        Ok(self.memory[address as usize - 32])
    }

    /// A routine from its first command to its return, or the number that it ends by.
    fn routine(&mut self, start: u16, slots: &mut [u32; 16], window: &mut Window, depth: u32) -> Result<u32, u8> {
        self.trace.routine(depth);
        let mut at = start;
        let mut pending = 0u32;
        loop {
            let word = self.program.word(at);
            let (a, b, c) = (word.byte(1), word.byte(2), word.byte(3));
            match word.op() {
                SET => {
                    self.afford(1)?;
                    free(pending, [a])?;
                    slots[a as usize & 15] = word.half(2) as u32;
                    self.charge(1);
                    at += 4;
                }
                ADD => {
                    self.afford(1)?;
                    free(pending, [a, b, c])?;
                    slots[a as usize & 15] = slots[b as usize & 15].wrapping_add(slots[c as usize & 15]);
                    self.charge(1);
                    at += 4;
                }
                SUBTRACT => {
                    self.afford(1)?;
                    free(pending, [a, b, c])?;
                    slots[a as usize & 15] = slots[b as usize & 15].wrapping_sub(slots[c as usize & 15]);
                    self.charge(1);
                    at += 4;
                }
                LOAD => {
                    self.afford(2)?;
                    free(pending, [a, b])?;
                    let address = slots[b as usize & 15];
                    slots[a as usize & 15] = self.loaded(window, address)?;
                    self.charge(2);
                    at += 3;
                }
                STORE => {
                    self.afford(2)?;
                    free(pending, [a, b])?;
                    let address = slots[a as usize & 15];
                    if !window.may_store(address) {
                        return Err(10);
                    }
                    self.memory[address as usize - 32] = slots[b as usize & 15];
                    self.charge(2);
                    at += 3;
                }
                IF_ZERO => {
                    self.afford(1)?;
                    free(pending, [a])?;
                    self.charge(1);
                    at = if slots[a as usize & 15] == 0 { word.half(2) } else { at + 4 };
                }
                GO => {
                    self.afford(1)?;
                    self.charge(1);
                    at = word.half(1);
                }
                LFORK | FORK => {
                    let w = word.byte(4);
                    let weight = if word.op() == LFORK { 6 } else { 12 };
                    self.afford(weight)?;
                    let row = self.program.row(a);
                    let run = ((1u32 << row.arguments) - 1) << (c & 31);
                    if pending & (run | bit(b) | bit(w)) != 0 {
                        return Err(9);
                    }
                    let mut part = window.part(slots[w as usize & 15]).ok_or(11)?;
                    if depth >= 32 {
                        return Err(26);
                    }
                    self.charge(weight);
                    let mut child = [0; 16];
                    for i in 0..row.arguments as usize {
                        child[i & 15] = slots[(c as usize + i) & 15];
                    }
                    pending |= bit(b);
                    window.cut_off(&part);
                    let value = self.routine(row.start, &mut child, &mut part, depth + 1)?;
                    slots[b as usize & 15] = value;
                    at += 5;
                }
                JOIN => {
                    self.afford(1)?;
                    self.charge(1);
                    pending = 0;
                    window.rejoin();
                    at += 1;
                }
                SUSPEND | YIELD => {
                    self.afford(3)?;
                    self.charge(3);
                    at += 1;
                }
                SHARE => {
                    self.afford(1)?;
                    free(pending, [a])?;
                    if !window.share(slots[a as usize & 15]) {
                        return Err(31);
                    }
                    self.charge(1);
                    at += 2;
                }
                _ => {
                    self.afford(1)?;
                    if pending != 0 {
                        return Err(12);
                    }
                    self.charge(1);
                    return Ok(slots[a as usize & 15]);
                }
            }
        }
    }
}
