//! A run by schedule, with its log.

use super::image::{read, Program};
use super::machine::{Job, Machine};
use super::Answer;

pub const LONGEST: usize = 32_768;

/// The answer, the number of records in each of document 01's states, the state of each record (its place among these, free being 0), and the
/// words of the stacklets. All but the answer of a refused run say nothing.
#[derive(Clone, Copy, Debug, PartialEq, Eq)]
pub struct Ran {
    pub answer: Answer,
    pub counts: [usize; 6],
    pub statuses: [u8; 32],
    pub words: [u32; 1024],
}

impl Ran {
    pub fn refused(number: u8) -> Ran {
        Ran { answer: Answer::Refused(number), counts: [0; 6], statuses: [0; 32], words: [0; 1024] }
    }
}

/// The number of a schedule's entries, or 13.
pub fn entries(schedule: &[u8]) -> Result<usize, u8> {
    if schedule.len() > LONGEST {
        return Err(13);
    }
    let mut rest = schedule;
    let mut count = 0;
    loop {
        // four steps at once
        while let Some(eight) = rest.first_chunk::<8>() {
            if u64::from_le_bytes(*eight) & 0x00FF_00FF_00FF_00FF != 0x0001_0001_0001_0001 {
                break;
            }
            rest = &rest[8..];
            count += 4;
        }
        rest = match rest {
            [1 | 2 | 4, _, more @ ..] => more,
            [3, _, _, more @ ..] => more,
            [] => return Ok(count),
            _ => return Err(13),
        };
        count += 1;
    }
}

/// What a run is fed beside its schedule and buffers.
#[derive(Clone, Copy)]
pub struct Fed<'a> {
    pub image: &'a [u8],
    pub cores: u8,
    pub arguments: &'a [u32],
    pub parameters: &'a [u32],
    pub allowance: u32,
}

pub fn run(fed: Fed, memory: &mut [u32], schedule: &[u8], log: &mut [u8]) -> Ran {
    if fed.cores == 0 || fed.cores > 4 {
        return Ran::refused(23);
    }
    let mut program = Program::blank();
    if let Err(number) = read(fed.image, &mut program) {
        return Ran::refused(number);
    }
    if fed.arguments.len() != program.row(0).arguments as usize {
        return Ran::refused(24);
    }
    let count = match entries(schedule) {
        Ok(count) => count,
        Err(number) => return Ran::refused(number),
    };
    let (Ok(parameters), Ok(memory)) = (fed.parameters.try_into(), memory.try_into()) else {
        return Ran::refused(25);
    };
    if log.len() < count {
        return Ran::refused(25);
    }
    let job = Job { program: &program, parameters };
    let mut m = Machine::blank(fed.cores, fed.allowance);
    m.start(&program, fed.arguments);
    play(&mut m, &job, memory, schedule, &mut log[..count]);
    m.ran()
}

fn play(m: &mut Machine, job: &Job, memory: &mut [u32; 992], schedule: &[u8], log: &mut [u8]) {
    let mut rest = schedule;
    let mut log = log.iter_mut();
    loop {
        let number;
        (number, rest) = match *rest {
            [1, core, 1, again, ..] if core == again => {
                let (same, more) = rest.split_at(2 * in_a_row(rest, core));
                burst(m, job, memory, core, same.len() / 2, &mut log);
                rest = more;
                continue;
            }
            [1, core, ref more @ ..] => (m.step(job, memory, core), more),
            [2, core, ref more @ ..] => (m.take(core), more),
            [3, core, t, ref more @ ..] => (m.steal(job, core, t), more),
            [4, t, ref more @ ..] => (m.enable(t), more),
            _ => return,
        };
        if let Some(byte) = log.next() {
            *byte = number;
        }
    }
}

/// How many of the next entries are `01 c`.
fn in_a_row(schedule: &[u8], core: u8) -> usize {
    let four = [1, core, 1, core, 1, core, 1, core];
    let fours = schedule.chunks_exact(8).take_while(|eight| **eight == four).count();
    4 * fours + schedule[8 * fours..].chunks_exact(2).take_while(|entry| **entry == [1, core]).count()
}

/// Entries `01 c`, so many of them, and their log bytes.
fn burst(m: &mut Machine, job: &Job, memory: &mut [u32; 992], core: u8, count: usize, log: &mut std::slice::IterMut<u8>) {
    let mut more = count;
    while more > 0 {
        let (accepted, number) = m.steps(job, memory, core, more);
        more -= accepted;
        log.by_ref().take(accepted).for_each(|byte| *byte = 0);
        if number != 0 {
            more -= 1;
            log.by_ref().take(1).for_each(|byte| *byte = number);
        }
    }
}
