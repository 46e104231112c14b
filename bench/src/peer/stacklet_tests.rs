//! The stacklets' words on the second implementation: a frame's are cleared when it is given back, and no others.
//! The words expected were worked out by hand from documents 01 and 02.

use super::machine::{Job, Machine, Status, WORDS};
use super::run::{entries, run, Fed, Ran};
use super::watch::watch;
use super::Answer;
use crate::assemble::{image, Routine};
use crate::generate::{job, schedule};
use crate::random::Random;
use crate::text::hex;

fn routine(slots: u8, arguments: u8, code: &str) -> Routine {
    Routine { slots, arguments, code: hex(code) }
}

fn fed(image: &[u8], cores: u8) -> Fed<'_> {
    Fed { image, cores, arguments: &[], parameters: &[0; 32], allowance: 1000 }
}

/// A run by a schedule, and the log byte of its last entry.
fn ran(fed: Fed, schedule: &[u8]) -> (Ran, u8) {
    let mut log = vec![0; schedule.len()];
    let ran = run(fed, &mut [0; 992], schedule, &mut log);
    let count = entries(schedule).expect("a schedule");
    (ran, log[..count].last().copied().unwrap_or(0))
}

/// The words that are not zero, as `place=word`.
fn left(ran: &Ran) -> String {
    let words: Vec<String> =
        ran.words.iter().enumerate().filter(|(_, word)| **word != 0).map(|(place, word)| format!("{place}={word}")).collect();
    words.join(" ")
}

/// Goes through lines of an entry in hexadecimal, a colon and the words left after it. Each entry but the last must be accepted.
fn follow(fed: Fed, lines: &str) -> (Ran, u8) {
    let mut schedule = vec![];
    let mut last = ran(fed, &schedule);
    for (number, line) in lines.lines().map(str::trim).filter(|line| !line.is_empty()).enumerate() {
        assert_eq!(last.1, 0, "before entry {number}");
        let (entry, words) = line.split_once(':').expect("an entry and words");
        schedule.extend(hex(entry));
        last = ran(fed, &schedule);
        assert_eq!(left(&last.0), words.trim(), "after entry {number}");
    }
    last
}

fn finished(end: (Ran, u8), result: u32) {
    assert!(matches!(end.0.answer, Answer::Finished { result: r, .. } if r == result), "{:?}", end.0.answer);
    assert_eq!(end.0.words, [0; 1024]);
}

#[test]
fn nested_lforks() {
    // each sets a slot, forks the next and returns what that returned
    let root = routine(4, 0, "01 00 20 00  08 01 01 00 00  0A  0D 01");
    let middle = routine(3, 1, "01 01 07 00  08 02 02 00 00  0A  0D 02");
    let leaf = routine(2, 1, "01 01 09 00  0D 01");
    let image = image(&[root, middle, leaf]);
    let lines = "
        01 00: 0=32
        01 00: 0=32 4=32
        01 00: 0=32 4=32 5=7
        01 00: 0=32 4=32 5=7 7=32
        01 00: 0=32 4=32 5=7 7=32 8=9
        01 00: 0=32 4=32 5=7 6=9
        01 00: 0=32 4=32 5=7 6=9
        01 00: 0=32 1=9
        01 00: 0=32 1=9
        01 00:";
    finished(follow(fed(&image, 1), lines), 9);
}

#[test]
fn a_frame_at_the_end_of_its_stacklet() {
    // the 09's child stands at 64; four frames fill the words before it, and the last, of 4 words, returns
    let root = routine(16, 0, "01 00 20 00  09 04 01 00 00  08 01 02 00 00  0A  02 03 01 02  0D 03");
    let call = |next: u8, slots: u8| routine(slots, 1, &format!("08 {next:02X} 01 00 00  0A  0D 01"));
    let queued = routine(16, 1, "0D 00");
    let leaf = routine(4, 1, "01 03 05 00  0D 03");
    let image = image(&[root, call(2, 16), call(3, 12), call(5, 16), queued, leaf]);
    let lines = "
        01 00: 0=32
        01 00: 0=32 64=32
        01 00: 0=32 16=32 64=32
        01 00: 0=32 16=32 32=32 64=32
        01 00: 0=32 16=32 32=32 44=32 64=32
        01 00: 0=32 16=32 32=32 44=32 60=32 64=32
        01 00: 0=32 16=32 32=32 44=32 60=32 63=5 64=32
        01 00: 0=32 16=32 32=32 44=32 45=5 64=32
        01 00: 0=32 16=32 32=32 44=32 45=5 64=32
        01 00: 0=32 16=32 32=32 33=5 64=32
        02 01: 0=32 16=32 32=32 33=5 64=32
        01 01: 0=32 1=32 16=32 32=32 33=5
        01 00: 0=32 1=32 16=32 32=32 33=5
        01 00: 0=32 1=32 16=32 17=5
        01 00: 0=32 1=32 16=32 17=5
        01 00: 0=32 1=32 2=5
        01 00: 0=32 1=32 2=5
        01 00: 0=32 1=32 2=5 3=37
        01 00:";
    finished(follow(fed(&image, 2), lines), 37);
}

#[test]
fn a_connected_child_on_another_stacklet() {
    // five frames of sixteen words: the fifth does not fit on the first stacklet
    let root = routine(16, 0, "01 00 20 00  01 0F 01 00  08 01 01 00 00  0A  0D 01");
    let call = |next: u8| routine(16, 1, &format!("01 0F {next:02X} 00  08 {next:02X} 01 00 00  0A  0D 01"));
    let leaf = routine(16, 1, "01 0F 05 00  0D 0F");
    let image = image(&[root, call(2), call(3), call(4), leaf]);
    let lines = "
        01 00: 0=32
        01 00: 0=32 15=1
        01 00: 0=32 15=1 16=32
        01 00: 0=32 15=1 16=32 31=2
        01 00: 0=32 15=1 16=32 31=2 32=32
        01 00: 0=32 15=1 16=32 31=2 32=32 47=3
        01 00: 0=32 15=1 16=32 31=2 32=32 47=3 48=32
        01 00: 0=32 15=1 16=32 31=2 32=32 47=3 48=32 63=4
        01 00: 0=32 15=1 16=32 31=2 32=32 47=3 48=32 63=4 64=32
        01 00: 0=32 15=1 16=32 31=2 32=32 47=3 48=32 63=4 64=32 79=5
        01 00: 0=32 15=1 16=32 31=2 32=32 47=3 48=32 49=5 63=4
        01 00: 0=32 15=1 16=32 31=2 32=32 47=3 48=32 49=5 63=4
        01 00: 0=32 15=1 16=32 31=2 32=32 33=5 47=3
        01 00: 0=32 15=1 16=32 31=2 32=32 33=5 47=3
        01 00: 0=32 15=1 16=32 17=5 31=2
        01 00: 0=32 15=1 16=32 17=5 31=2
        01 00: 0=32 1=5 15=1
        01 00: 0=32 1=5 15=1
        01 00:";
    finished(follow(fed(&image, 1), lines), 5);
}

#[test]
fn a_suspended_child_while_its_parent_s_sibling_goes() {
    // the first child's own child suspends; the first child waits; the second child, on another stacklet, returns before both
    let root = routine(4, 0, "01 00 20 00  08 01 01 00 00  08 03 02 00 00  0A  02 03 01 02  0D 03");
    let first = routine(3, 1, "08 02 01 00 00  0A  0D 01");
    let inner = routine(2, 1, "01 01 05 00  0B  0D 01");
    let second = routine(2, 1, "01 01 06 00  0D 01");
    let image = image(&[root, first, inner, second]);
    let lines = "
        01 00: 0=32
        01 00: 0=32 4=32
        01 00: 0=32 4=32 7=32
        01 00: 0=32 4=32 7=32 8=5
        01 00: 0=32 4=32 7=32 8=5
        01 00: 0=32 4=32 7=32 8=5
        01 00: 0=32 4=32 7=32 8=5 64=32
        01 00: 0=32 4=32 7=32 8=5 64=32 65=6
        01 00: 0=32 2=6 4=32 7=32 8=5
        01 00: 0=32 2=6 4=32 7=32 8=5
        04 02: 0=32 2=6 4=32 7=32 8=5
        02 00: 0=32 2=6 4=32 7=32 8=5
        01 00: 0=32 2=6 4=32 5=5
        02 00: 0=32 2=6 4=32 5=5
        01 00: 0=32 2=6 4=32 5=5
        01 00: 0=32 1=5 2=6
        02 00: 0=32 1=5 2=6
        01 00: 0=32 1=5 2=6
        01 00: 0=32 1=5 2=6 3=11
        01 00:";
    finished(follow(fed(&image, 1), lines), 11);
}

#[test]
fn a_stolen_child() {
    let root = routine(4, 0, "01 00 20 00  08 01 01 00 00  08 01 02 00 00  0A  0D 02");
    let child = routine(2, 1, "01 01 05 00  0D 01");
    let image = image(&[root, child]);
    let lines = "
        01 00: 0=32
        01 00: 0=32 4=32
        03 01 00: 0=32 4=32 64=32
        01 01: 0=32 4=32 64=32 65=5
        01 01: 0=32 2=5 4=32
        01 00: 0=32 2=5 4=32 5=5
        01 00: 0=32 1=5 2=5
        01 00: 0=32 1=5 2=5
        01 00:";
    finished(follow(fed(&image, 2), lines), 5);
}

#[test]
fn a_fault_keeps_the_words() {
    // a return with a pending slot, by a child whose own child stands on another stacklet
    let root = routine(4, 0, "01 00 20 00  08 01 01 00 00  0A  0D 01");
    let child = routine(3, 1, "09 02 01 00 00  0D 00");
    let queued = routine(2, 1, "0D 00");
    let image = image(&[root, child, queued]);
    let lines = "
        01 00: 0=32
        01 00: 0=32 4=32
        01 00: 0=32 4=32 64=32
        01 00: 0=32 4=32 64=32";
    let (end, number) = follow(fed(&image, 2), lines);
    assert_eq!((end.answer, number), (Answer::Faulted { number: 12, thread: 1, offset: 30 }, 12));
    // the machine is over, and no entry changes them
    let after = ran(fed(&image, 2), &hex("01 00 01 00 01 00 01 00 01 00 02 01 04 02"));
    assert_eq!((left(&after.0).as_str(), after.1), ("0=32 4=32 64=32", 19));
}

#[test]
fn a_return_beyond_the_allowance_keeps_the_words() {
    let image = image(&[routine(2, 0, "01 01 07 00  0D 01")]);
    let (end, number) = follow(Fed { allowance: 1, ..fed(&image, 1) }, "01 00: 1=7\n01 00: 1=7");
    assert_eq!((end.answer, number), (Answer::Open { units: 1 }, 22));
}

#[test]
fn the_root_s_return_takes_its_arguments() {
    let image = image(&[routine(5, 3, "01 04 08 00  0D 02")]);
    let fed = Fed { arguments: &[7, 0, 9], ..fed(&image, 1) };
    assert_eq!(left(&ran(fed, &[]).0), "0=7 2=9");
    finished(follow(fed, "01 00: 0=7 2=9 4=8\n01 00:"), 9);
}

/// The places of the words that belong to a thread's frame.
fn held(m: &Machine, job: &Job) -> [bool; WORDS] {
    let mut held = [false; WORDS];
    for thread in m.threads.iter().filter(|thread| thread.status != Status::Free) {
        let base = thread.base as usize;
        held[base..base + job.program.row(thread.routine).slots as usize].fill(true);
    }
    held
}

#[test]
fn free_words_are_zero_after_every_entry() {
    let (mut accepted, mut freed) = (0, 0);
    for seed in 0..400 {
        let mut random = Random::new(seed * 1_000_003);
        let case = job(&mut random);
        let bytes = schedule(&mut random, &case, 600);
        let mut before = None;
        watch(&case, &bytes, |number, m, job| {
            accepted += (number == 0) as u32;
            let free = m.free_threads.len();
            freed += before.is_some_and(|before| free > before) as u32;
            before = Some(free);
            let held = held(m, job);
            assert!(m.words.iter().zip(held).all(|(word, held)| held || *word == 0), "seed {seed}, after {accepted} entries");
        });
    }
    assert!(accepted > 10_000 && freed > 1000, "{accepted} entries accepted, {freed} frames given back");
}
