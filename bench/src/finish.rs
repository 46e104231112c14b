//! The promises that a house run finishes, checked on a job. They are about an image without 09, 0B and 0C whose plain run finishes.
//!
//! On one core (document 02, T-12): at most 16 routines deep, a buffer of two bytes for each command carried out and one more. On c cores:
//! c * (depth - 1) + 1 at most 16, which no state's threads in use pass, a buffer of six bytes for each command. On the way every try is accepted.

use crate::generate::Case;
use crate::peer::command::{FORK, SUSPEND, YIELD};
use crate::peer::house::{tried, Housed, Tries};
use crate::peer::image;
use crate::peer::plain::measured;
use crate::peer::run::{Fed, LONGEST};
use crate::peer::{Answer, PlainAnswer};

/// The jobs that met a promise's conditions.
#[derive(Clone, Copy, Debug, Default)]
pub struct Jobs {
    /// by cores
    pub met: [u64; 5],
    /// by cores, those more than one deep with as many threads in use at once as the bound lets be
    pub full: [u64; 5],
    /// by depth, those on one core
    pub deep: [u64; 17],
}

impl Jobs {
    /// Whether each number of cores met a promise's conditions and its bound of threads.
    pub fn complete(&self) -> bool {
        self.met[1..].iter().chain(&self.full[1..]).all(|count| *count > 0)
    }
}

/// A promise that a run breaks: the job with its cores, the entries written, what is promised and what the run gave.
pub struct Broken {
    pub what: &'static str,
    pub case: Case,
    pub entries: Vec<u8>,
    pub promised: String,
    pub given: String,
}

/// How the plain run ends, and what that promises of a house run.
#[derive(Debug)]
struct Promise {
    result: u32,
    units: u32,
    commands: usize,
    bytes: usize,
    threads: u32,
}

/// Checks the promises on 1 to 4 cores of the house run that is given.
pub fn check(jobs: &mut Jobs, case: &Case, scheduled: impl Fn(Fed, &mut [u32], &mut [u8]) -> Housed) -> Result<(), Broken> {
    if !image::check(&case.image).is_ok_and(|program| !program.has(&[FORK, SUSPEND, YIELD])) {
        return Ok(());
    }
    // no command weighs more than 6, so a run that takes more has too many of them for any buffer
    let fed = Fed { allowance: case.allowance.min(6 * LONGEST as u32 / 2), ..case.fed() };
    let mut memory = case.memory.clone();
    let (PlainAnswer::Finished { result, units }, measure) = measured(fed, &mut memory) else {
        return Ok(());
    };
    let commands = measure.commands as usize;
    for cores in 1..=4 {
        let bytes = if cores == 1 { 2 * commands + 1 } else { 6 * commands };
        let threads = cores as u32 * (measure.depth - 1) + 1;
        if threads > 16 || bytes > LONGEST {
            continue;
        }
        let case = Case { cores, ..case.clone() };
        let tries = kept(&case, &Promise { result, units, commands, bytes, threads }, &memory, &scheduled)?;
        jobs.met[cores as usize] += 1;
        jobs.full[cores as usize] += (threads > 1 && tries.threads as u32 == threads) as u64;
        if cores == 1 {
            jobs.deep[measure.depth as usize] += 1;
        }
    }
    Ok(())
}

/// A house run's answer, the memory after it, and its buffer.
fn on_buffer<R>(case: &Case, bytes: usize, scheduled: impl FnOnce(Fed, &mut [u32], &mut [u8]) -> R) -> (R, Vec<u32>, Vec<u8>) {
    let (mut memory, mut buffer) = (case.memory.clone(), vec![0xAA; bytes]);
    let answer = scheduled(case.fed(), &mut memory, &mut buffer);
    (answer, memory, buffer)
}

/// The tries of a house run that keeps a promise.
fn kept(
    case: &Case,
    promise: &Promise,
    after: &[u32],
    scheduled: impl Fn(Fed, &mut [u32], &mut [u8]) -> Housed,
) -> Result<Tries, Broken> {
    let Promise { result, units, commands, bytes, threads } = *promise;
    let (ours, memory, buffer) = on_buffer(case, bytes, &scheduled);
    let ((peer, tries), peer_memory, peer_buffer) = on_buffer(case, bytes, tried);
    // the last command is the root's return, of weight 1
    let short = (case.cores == 1).then(|| on_buffer(case, bytes - 1, &scheduled).0);
    let entries = buffer[..ours.used.min(bytes)].to_vec();
    let tests = [
        ("a run that is promised to finish", ours.ran.answer == Answer::Finished { result, units } && memory == after),
        ("the entries of a lone core", case.cores != 1 || entries == [1, 0].repeat(commands)),
        (
            "a lone core's run on a byte less",
            short.is_none_or(|run| run.ran.answer == Answer::Open { units: units - 1 } && run.used == 2 * commands - 2),
        ),
        ("a promise that every try is accepted", tries.not_accepted().is_none()),
        ("the bound of threads in use", tries.threads as u32 <= threads),
        ("a run whose tries are told", peer == ours && peer_memory == memory && peer_buffer == buffer),
    ];
    let Some((what, _)) = tests.into_iter().find(|(_, holds)| !holds) else {
        return Ok(tries);
    };
    let promised = format!("{promise:?}, {:?}, bytes used {}, {tries:?}", peer.ran.answer, peer.used);
    let less = short.map(|run| (run.ran.answer, run.used));
    let given = format!("{:?}, bytes used {}, on a byte less {less:?}, memory as promised: {}", ours.ran.answer, ours.used, memory == after);
    Err(Broken { what, case: case.clone(), entries, promised, given })
}

#[cfg(test)]
mod tests {
    use super::*;
    use crate::generate::job;
    use crate::peer::house::house;
    use crate::random::Random;

    /// So many random jobs.
    fn checked(count: u64, scheduled: impl Fn(Fed, &mut [u32], &mut [u8]) -> Housed) -> Result<Jobs, Broken> {
        let mut jobs = Jobs::default();
        for seed in 0..count {
            check(&mut jobs, &job(&mut Random::new(seed * 977)), &scheduled)?;
        }
        Ok(jobs)
    }

    #[test]
    fn promises_are_kept() {
        let jobs = checked(4000, house).map_err(|broken| format!("{}: {} {}", broken.what, broken.promised, broken.given)).unwrap();
        println!("{jobs:?}");
        assert!(jobs.complete() && jobs.deep[1..].iter().all(|count| *count > 0));
    }

    #[test]
    fn broken_promises_are_told() {
        let what = |scheduled: fn(Fed, &mut [u32], &mut [u8]) -> Housed| checked(4000, scheduled).err().map(|broken| broken.what);
        let short = |fed: Fed, memory: &mut [u32], buffer: &mut [u8]| {
            let most = buffer.len() - 1;
            house(fed, memory, &mut buffer[..most])
        };
        assert_eq!(what(short), Some("a run that is promised to finish"));
        let long = |fed: Fed, memory: &mut [u32], buffer: &mut [u8]| {
            let mut more = [&*buffer, &[0xAA]].concat();
            let housed = house(fed, memory, &mut more);
            buffer.copy_from_slice(&more[..buffer.len()]);
            housed
        };
        assert_eq!(what(long), Some("a lone core's run on a byte less"));
    }
}
