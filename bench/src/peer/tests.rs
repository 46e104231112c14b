//! Document 01's bench cases on the second implementation, and its house run against its run by schedule.

use super::house::house;
use super::image::number;
use super::plain::{measured, plain, Measure};
use super::run::{run, Fed};
use super::{Answer, PlainAnswer};
use crate::generate::job;
use crate::random::Random;
use crate::text::{hex, print};

fn one_routine(slots: u8, code: &str) -> Vec<u8> {
    let code = hex(code);
    let mut image = vec![1, slots, 0, code.len() as u8, 0];
    image.extend(code);
    image
}

/// One core, no arguments, so many steps.
fn steps(image: &[u8], allowance: u32, count: usize) -> (Answer, Vec<u8>) {
    let mut log = vec![0; count];
    let fed = Fed { image, cores: 1, arguments: &[], parameters: &[0; 32], allowance };
    let ran = run(fed, &mut [0; 992], &[1, 0].repeat(count), &mut log);
    (ran.answer, log)
}

#[test]
fn starred_images() {
    assert_eq!(number(&[]), 1);
    assert_eq!(number(&[0]), 2);
    assert_eq!(number(&hex("01 01 02 02 00 0D 00")), 3);
    assert_eq!(number(&one_routine(1, "FF 00")), 4);
    assert_eq!(number(&one_routine(1, "0D")), 5);
    assert_eq!(number(&one_routine(1, "0D 01")), 6);
    assert_eq!(number(&one_routine(1, "0A")), 7);
    assert_eq!(number(&one_routine(1, "07 01 00")), 8);
}

#[test]
fn starred_runs() {
    let image = hex("01 01 00 02 00 0D 00");
    assert_eq!(steps(&image, 1, 1), (Answer::Finished { result: 0, units: 1 }, vec![0]));
    assert_eq!(steps(&image, 0, 1), (Answer::Open { units: 0 }, vec![22]));
}

#[test]
fn addresses() {
    // 01 0 A; 04 1 0 or 05 0 1; 0D 1
    let load = |a: u16| one_routine(2, &format!("01 00 {:02X} {:02X} 04 01 00 0D 01", a % 256, a / 256));
    let store = |a: u16| one_routine(2, &format!("01 00 {:02X} {:02X} 05 00 01 0D 01", a % 256, a / 256));
    let number = |image: &[u8]| match steps(image, 100, 3).0 {
        Answer::Faulted { number, .. } => number,
        _ => 0,
    };
    assert_eq!(number(&load(31)), 0);
    assert_eq!(number(&store(31)), 10);
    assert_eq!(number(&store(32)), 0);
    assert_eq!(number(&store(1024)), 10);
}

const WHOLE: &str = "02 03 00 15 00 01 00 06 00 01 02 20 00 08 01 00 00 02 08 01 01 01 02 0A 02 00 00 01 0D 00 01 00 05 00 0D 00";

#[test]
fn whole() {
    let schedule = "01 00 01 00 03 01 00 02 01 01 01 01 01 01 00 01 00 01 00 01 00 01 00 04 01";
    let input = format!("02 00 64 00 00 00 24 00 {WHOLE} {schedule}");
    let said = print(&hex(&input));
    let expected = "0 0\n1 0\n2 0\n3 15\n4 0\n5 0\n6 0\n7 0\n8 0\n9 0\n10 0\n11 19\nfinished 10 20\n";
    assert_eq!(said, expected);
    let image = hex(WHOLE);
    let fed = Fed { image: &image, cores: 1, arguments: &[], parameters: &[0; 32], allowance: 100 };
    assert_eq!(plain(fed, &mut [0; 992]), PlainAnswer::Finished { result: 10, units: 20 });
}

/// The commands and depth of a plain run that finishes, by its arguments.
fn measure(image: &str, arguments: &[u32]) -> Measure {
    let image = hex(image);
    let fed = Fed { image: &image, cores: 1, arguments, parameters: &[0; 32], allowance: 1000 };
    let (answer, measure) = measured(fed, &mut [0; 992]);
    assert_eq!(answer, plain(fed, &mut [0; 992]));
    assert!(matches!(answer, PlainAnswer::Finished { .. }));
    measure
}

#[test]
fn measures() {
    assert_eq!(measure("01 01 00 02 00 0D 00", &[]), Measure { commands: 1, depth: 1, shared: 0 });
    assert_eq!(measure(WHOLE, &[]), Measure { commands: 10, depth: 2, shared: 0 });
    // routine 0 of a count: it calls itself of one less
    let counting = "01 04 01 1E 00 06 00 1C 00 01 01 01 00 03 00 00 01 01 02 20 00 08 00 03 00 02 0A 02 03 03 01 0D 03 0D 00";
    for k in [15, 31] {
        assert_eq!(measure(counting, &[k]), Measure { commands: 8 * k as u64 + 2, depth: k + 1, shared: 0 });
    }
}

#[test]
fn house_runs_are_runs_by_their_entries() {
    for seed in 0..2000 {
        let mut random = Random::new(seed * 977);
        let case = job(&mut random);
        let mut buffer = vec![0xAA; random.pick(&[0, 2, 3, 50, 1001, 32_768, 33_000])];
        let (mut memory, mut other) = (case.memory.clone(), case.memory.clone());
        let housed = house(case.fed(), &mut memory, &mut buffer);
        let mut log = vec![0xAA; housed.used];
        let ran = run(case.fed(), &mut other, &buffer[..housed.used], &mut log);
        assert_eq!(housed.ran, ran);
        assert_eq!(memory, other);
        assert!(buffer[housed.used..].iter().all(|byte| *byte == 0xAA));
        assert!(buffer.len().min(32_768) - housed.used < 3 || buffer.len() < 3 || housed_to_its_end(&case, housed.used));
    }
}

/// With more room the house run would have written nothing more.
fn housed_to_its_end(case: &crate::generate::Case, used: usize) -> bool {
    let mut buffer = vec![0; 32_768];
    house(case.fed(), &mut case.memory.clone(), &mut buffer).used == used
}
