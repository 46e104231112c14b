//! The house run: the built-in scheduler.

use super::image::{read, Program};
use super::machine::{Job, Machine, Status, IDLE};
use super::run::{Fed, Ran, LONGEST};

/// The answer with the state of each record, and the bytes of the entries that it wrote.
#[derive(Clone, Copy, Debug, PartialEq, Eq)]
pub struct Housed {
    pub ran: Ran,
    pub used: usize,
}

impl Housed {
    fn refused(number: u8) -> Housed {
        Housed { ran: Ran::refused(number), used: 0 }
    }
}

/// The tries by their log bytes, and the most threads in use at any state. It leaves out enabling, which is never refused and takes no thread.
#[derive(Clone, Copy, Debug, PartialEq, Eq)]
pub struct Tries {
    pub by_number: [u64; 32],
    pub threads: u8,
}

impl Tries {
    /// The number of the first kind of try that was not accepted.
    pub fn not_accepted(&self) -> Option<usize> {
        (1..32).find(|number| self.by_number[*number] != 0)
    }
}

/// What hears of each try; `()` does not, so that a run with it costs nothing more.
trait Watch {
    const HEARS: bool;
    fn tried(&mut self, m: &Machine, number: u8);
}

impl Watch for () {
    const HEARS: bool = false;
    #[inline(always)]
    fn tried(&mut self, _m: &Machine, _number: u8) {}
}

impl Watch for Tries {
    const HEARS: bool = true;
    fn tried(&mut self, m: &Machine, number: u8) {
        self.by_number[number as usize] += 1;
        self.threads = self.threads.max(32 - m.free_threads.len());
    }
}

pub fn house(fed: Fed, memory: &mut [u32], buffer: &mut [u8]) -> Housed {
    watched(fed, memory, buffer, &mut ())
}

/// The house run with its tries; Start's state has one thread.
pub fn tried(fed: Fed, memory: &mut [u32], buffer: &mut [u8]) -> (Housed, Tries) {
    let mut tries = Tries { by_number: [0; 32], threads: 1 };
    (watched(fed, memory, buffer, &mut tries), tries)
}

#[inline(always)]
fn watched<W: Watch>(fed: Fed, memory: &mut [u32], buffer: &mut [u8], watch: &mut W) -> Housed {
    if fed.cores == 0 || fed.cores > 4 {
        return Housed::refused(23);
    }
    let mut program = Program::blank();
    if let Err(number) = read(fed.image, &mut program) {
        return Housed::refused(number);
    }
    if fed.arguments.len() != program.row(0).arguments as usize {
        return Housed::refused(24);
    }
    let (Ok(parameters), Ok(memory)) = (fed.parameters.try_into(), memory.try_into()) else {
        return Housed::refused(25);
    };
    let job = Job { program: &program, parameters };
    let mut m = Machine::blank(fed.cores, fed.allowance);
    m.start(&program, fed.arguments);
    let most = buffer.len().min(LONGEST);
    let mut written = Written { buffer: &mut buffer[..most], used: 0 };
    // steps in bursts are not heard of one by one
    if fed.cores == 1 && !W::HEARS {
        alone(&mut m, &job, memory, &mut written);
    } else {
        rounds(&mut m, &job, memory, &mut written, watch);
    }
    Housed { ran: m.ran(), used: written.used }
}

struct Written<'a> {
    buffer: &'a mut [u8],
    used: usize,
}

impl Written<'_> {
    /// Whether a try may be made.
    #[inline(always)]
    fn room(&self) -> bool {
        self.buffer.len() - self.used >= 3
    }

    /// How many steps in a row may be tried.
    fn steps(&self) -> usize {
        (self.buffer.len() - self.used).saturating_sub(1) / 2
    }

    /// Entries `01 00`, so many of them.
    fn put_steps(&mut self, count: usize) {
        for entry in self.buffer[self.used..].chunks_exact_mut(2).take(count) {
            entry.copy_from_slice(&[1, 0]);
        }
        self.used += 2 * count;
    }

    #[inline(always)]
    fn put<const N: usize>(&mut self, entry: [u8; N]) {
        self.buffer[self.used..self.used + N].copy_from_slice(&entry);
        self.used += N;
    }

    /// An entry, where its log byte lets it stand.
    #[inline(always)]
    fn put_standing<const N: usize>(&mut self, number: u8, entry: [u8; N]) {
        if stands(number) {
            self.put(entry);
        }
    }
}

/// Whether an entry with this log byte is written: accepted or faulting.
#[inline(always)]
fn stands(number: u8) -> bool {
    number < 13 || number == 31
}

/// The rounds of any number of cores; a function of its own, with all registers to itself.
#[inline(never)]
fn rounds<W: Watch>(m: &mut Machine, job: &Job, memory: &mut [u32; 992], written: &mut Written, watch: &mut W) {
    loop {
        let mut accepted = false;
        for core in 0..m.count {
            if m.over {
                return;
            }
            let number;
            if m.cores[core as usize & 3] != IDLE {
                if !written.room() {
                    return;
                }
                number = m.step(job, memory, core);
                written.put_standing(number, [1, core]);
            } else if !m.ready.is_empty() {
                if !written.room() {
                    return;
                }
                number = m.take(core);
                written.put_standing(number, [2, core]);
            } else {
                let Some(t) = seed(m, job) else { continue };
                if !written.room() {
                    return;
                }
                number = m.steal(job, core, t);
                written.put_standing(number, [3, core, t]);
            }
            watch.tried(m, number);
            accepted |= number == 0;
        }
        if m.over || (!accepted && !enable_lowest(m, written)) {
            return;
        }
    }
}

/// The first seed met: cores from 0, each up its chain of lent parents.
fn seed(m: &Machine, job: &Job) -> Option<u8> {
    for core in 0..m.count {
        let mut t = m.cores[core as usize & 3];
        if t == IDLE {
            continue;
        }
        while m.threads[t as usize & 31].connected {
            t = m.threads[t as usize & 31].parent;
            if m.has_seed(job, t) {
                return Some(t);
            }
        }
    }
    None
}

/// After a round with nothing accepted; false where the run ends.
fn enable_lowest(m: &mut Machine, written: &mut Written) -> bool {
    let Some(t) = m.threads.iter().position(|thread| thread.status == Status::Suspended) else {
        return false;
    };
    if !written.room() {
        return false;
    }
    m.enable(t as u8);
    written.put([4, t as u8]);
    true
}

/// The rounds of a single core: it steps while it is busy.
fn alone(m: &mut Machine, job: &Job, memory: &mut [u32; 992], written: &mut Written) {
    while !m.over {
        if m.cores[0] != IDLE {
            if !written.room() {
                return;
            }
            // an idle core is told 15, which ends the burst as any refusal does
            let (accepted, number) = m.steps(job, memory, 0, written.steps());
            written.put_steps(accepted + (number != 0 && stands(number)) as usize);
            if number != 0 && !m.over && m.cores[0] != IDLE && !enable_lowest(m, written) {
                return;
            }
        } else if !m.ready.is_empty() {
            if !written.room() {
                return;
            }
            m.take(0);
            written.put([2, 0]);
        } else if !enable_lowest(m, written) {
            return;
        }
    }
}
