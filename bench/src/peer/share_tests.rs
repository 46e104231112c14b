//! Words shared for reading (document 02, T-04) on the second implementation. What is expected was worked out by hand from documents 01 and 02.

use super::house::house;
use super::image::number;
use super::machine::{Job, Machine, Status, IDLE};
use super::plain::{measured, plain};
use super::run::{entries, run, Fed};
use super::window::Window;
use super::{Answer, PlainAnswer};
use crate::assemble::{image, Routine};
use crate::text::hex;

fn routine(slots: u8, arguments: u8, code: &str) -> Routine {
    Routine { slots, arguments, code: hex(code) }
}

fn one(slots: u8, code: &str) -> Vec<u8> {
    image(&[routine(slots, 0, code)])
}

fn fed(image: &[u8], cores: u8) -> Fed<'_> {
    Fed { image, cores, arguments: &[], parameters: &[0; 32], allowance: 1000 }
}

/// A run by a schedule: its answer, its log and the memory after it.
fn ran(fed: Fed, schedule: &str) -> (Answer, Vec<u8>, [u32; 992]) {
    let schedule = hex(schedule);
    let (mut memory, mut log) = ([0; 992], vec![0; entries(&schedule).expect("a schedule")]);
    (run(fed, &mut memory, &schedule, &mut log).answer, log, memory)
}

fn plainly(image: &[u8]) -> PlainAnswer {
    plain(fed(image, 1), &mut [0; 992])
}

/// The house run on one core: its answer and the number of its entries, which for a job of lforks alone are all `01 00`.
fn stepped(image: &[u8]) -> (Answer, usize) {
    let mut buffer = [0; 1000];
    let housed = house(fed(image, 1), &mut [0; 992], &mut buffer);
    let count = housed.used / 2;
    assert_eq!(buffer[..housed.used], [1, 0].repeat(count));
    let (answer, log, _) = ran(fed(image, 1), &"01 00".repeat(count));
    assert_eq!(answer, housed.ran.answer);
    assert!(log[..count - 1].iter().all(|byte| *byte == 0));
    (answer, log[count - 1] as usize)
}

/// A job of lforks alone finishes by both runs.
fn finishes(image: &[u8], result: u32, units: u32) {
    assert_eq!(plainly(image), PlainAnswer::Finished { result, units });
    assert_eq!(stepped(image), (Answer::Finished { result, units }, 0));
}

/// A job of lforks alone ends by a fault in both runs: in the schedule's at a thread and an offset, in the plain run after so many units.
fn faults(image: &[u8], number: u8, thread: u8, offset: u16, units: u32) {
    assert_eq!(plainly(image), PlainAnswer::Stopped { number, units });
    assert_eq!(stepped(image), (Answer::Faulted { number, thread, offset }, number as usize));
}

/// The root stores 7 at 1,016, shares from there, and lforks a child in the words below 40, whose one argument is 40. Codes begin at 13.
fn sharing(child: &str, grandchild: &str) -> Vec<u8> {
    let root = routine(4, 0, "01 00 F8 03  01 01 07 00  05 00 01  0E 00  01 02 28 00  08 01 03 02 02  0A  0D 03");
    image(&[root, routine(4, 1, child), routine(3, 0, grandchild)])
}

/// The root's own units, of which its join and return are the last two, and the child's first byte.
const ROOT: u32 = 14;
const CHILD: u16 = 13 + 25;

/// A child of `sharing` that loads a word, by its address, and returns it.
fn loads(address: u16) -> String {
    format!("01 01 {:02X} {:02X}  04 02 01  0D 02", address % 256, address / 256)
}

#[test]
fn a_child_loads_from_the_share_on_and_its_own_words() {
    let none = "0D 00";
    finishes(&sharing(&loads(1016), none), 7, ROOT + 4);
    finishes(&sharing(&loads(1023), none), 0, ROOT + 4);
    finishes(&sharing(&loads(32), none), 0, ROOT + 4);
    finishes(&sharing(&loads(39), none), 0, ROOT + 4);
    for address in [40, 1015, 1024] {
        // after the set
        faults(&sharing(&loads(address), none), 10, 1, CHILD + 4, ROOT - 2 + 1);
    }
}

#[test]
fn a_child_stores_no_shared_word_and_none_from_its_own_hi_on() {
    let stores = |address: u16| format!("01 01 {:02X} {:02X}  05 01 00  0D 00", address % 256, address / 256);
    finishes(&sharing(&stores(39), "0D 00"), 40, ROOT + 4);
    for address in [40, 1015, 1016] {
        faults(&sharing(&stores(address), "0D 00"), 10, 1, CHILD + 4, ROOT - 2 + 1);
    }
}

#[test]
fn a_child_that_shares_nothing_hands_its_span_on() {
    // the child forks in all of its window
    finishes(&sharing("08 02 01 00 00  0A  0D 01", &loads(1016)), 7, ROOT + 8 + 4);
    faults(&sharing("08 02 01 00 00  0A  0D 01", &loads(1015)), 10, 2, CHILD + 8 + 4, ROOT - 2 + 6 + 1);
}

#[test]
fn a_share_of_no_word_is_as_none() {
    // it shares at its hi, 40
    finishes(&sharing("0E 00  08 02 01 00 00  0A  0D 01", &loads(1016)), 7, ROOT + 9 + 4);
    faults(&sharing("0E 00  08 02 01 00 00  0A  0D 01", &loads(40)), 10, 2, CHILD + 10 + 4, ROOT - 2 + 7 + 1);
}

/// A child of `sharing` that shares from 36, cuts at 34 and lforks.
const SHARES: &str = "01 01 24 00  0E 01  01 02 22 00  08 02 03 00 02  0A  0D 03";

#[test]
fn a_grandchild_reads_its_parent_s_share_alone() {
    for address in [32, 33, 36, 39] {
        finishes(&sharing(SHARES, &loads(address)), 0, ROOT + 11 + 4);
    }
    for address in [34, 35, 40, 1016] {
        faults(&sharing(SHARES, &loads(address)), 10, 2, CHILD + 18 + 4, ROOT - 2 + 9 + 1);
    }
}

#[test]
fn a_sharer_keeps_its_own_span_and_hands_it_on_after_its_join() {
    // it shares from 36 and loads 1,016 before its join
    finishes(&sharing("01 01 24 00  0E 01  01 02 F8 03  04 03 02  0D 03", "0D 00"), 7, ROOT + 6);
    // it shares from 36, joins, and forks in all of its window
    finishes(&sharing("01 01 24 00  0E 01  0A  08 02 03 00 00  0A  0D 03", &loads(1016)), 7, ROOT + 11 + 4);
}

#[test]
fn shared_twice_downwards() {
    // 6 at 1,016 and 5 at 1,000; shares from 1,016, from 1,000 and from there again; the child gets no word of its own and both addresses
    let root = "01 00 F8 03  01 01 E8 03  01 02 06 00  05 00 02  01 02 05 00  05 01 02  0E 00  0E 01  0E 01  01 03 20 00  08 01 04 00 03  0A  0D 04";
    let child = "04 02 00  04 03 01  02 02 02 03  0D 02";
    let image = image(&[routine(5, 0, root), routine(4, 2, child)]);
    finishes(&image, 11, 20 + 6);
    assert_eq!(measured(fed(&image, 1), &mut [0; 992]).1.shared, 2);
}

#[test]
fn shared_upwards() {
    faults(&one(2, "01 00 E8 03  01 01 F8 03  0E 00  0E 01  0D 00"), 31, 0, 15, 3);
    // after a join it may be
    finishes(&one(2, "01 00 E8 03  01 01 F8 03  0E 00  0A  0E 01  0D 00"), 1000, 6);
}

#[test]
fn shares_out_of_range() {
    let share = |s: u16| one(1, &format!("01 00 {:02X} {:02X}  0E 00  0D 00", s % 256, s / 256));
    finishes(&share(32), 32, 3);
    finishes(&share(1024), 1024, 3);
    for s in [0, 31, 1025, 65_535] {
        faults(&share(s), 31, 0, 9, 1);
    }
    // 65,535 + 101 = 65,636, whose low half is 100
    faults(&one(2, "01 00 FF FF  01 01 65 00  02 00 00 01  0E 00  0D 00"), 31, 0, 17, 3);
    // a child's own ceiling is its hi, 40
    finishes(&sharing("0E 00  0D 00", "0D 00"), 40, ROOT + 2);
    faults(&sharing("01 01 29 00  0E 01  0D 00", "0D 00"), 31, 1, CHILD + 4, ROOT - 2 + 1);
}

#[test]
fn a_share_below_the_mark() {
    // cut at 40, and then a share from there or from 39, which is not below lo
    let after_a_cut = |s: u8| {
        let root = format!("01 00 28 00  08 01 02 00 00  01 01 {s:02X} 00  0E 01  0A  0D 01");
        image(&[routine(3, 0, &root), routine(1, 0, "0D 00")])
    };
    finishes(&after_a_cut(40), 40, 1 + 6 + 1 + 1 + 1 + 1 + 1);
    faults(&after_a_cut(39), 31, 0, 9 + 13, 1 + 6 + 1 + 1);
}

#[test]
fn the_sharer_s_loads_and_stores() {
    let at = |address: u16, command: &str| {
        one(3, &format!("01 00 F8 03  0E 00  01 01 {:02X} {:02X}  {command}  0D 00", address % 256, address / 256))
    };
    for address in [32, 1015, 1016, 1023] {
        finishes(&at(address, "04 02 01"), 1016, 6);
    }
    for address in [32, 1015] {
        finishes(&at(address, "05 01 00"), 1016, 6);
    }
    for address in [31, 1016, 1023, 1024] {
        faults(&at(address, "05 01 00"), 10, 0, 5 + 10, 3);
    }
}

#[test]
fn words_cut_off_stay_cut_off_for_loads() {
    // shares from 1,016, cuts at 40, loads 39 or 40
    let after_a_cut = |address: u8| {
        let root = format!("01 00 F8 03  0E 00  01 00 28 00  08 01 02 00 00  01 01 {address:02X} 00  04 01 01  0A  0D 00");
        image(&[routine(3, 0, &root), routine(1, 0, "0D 00")])
    };
    finishes(&after_a_cut(40), 40, 1 + 1 + 1 + 6 + 1 + 1 + 2 + 1 + 1);
    faults(&after_a_cut(39), 10, 0, 9 + 19, 1 + 1 + 1 + 6 + 1 + 1);
}

#[test]
fn cuts_up_to_the_ceiling() {
    // shares from 1,016; the child stores its cut less one
    let cut = |e: u16| {
        let root = format!("01 00 F8 03  0E 00  01 01 {:02X} {:02X}  08 01 02 01 01  0A  0D 01", e % 256, e / 256);
        image(&[routine(3, 0, &root), routine(3, 1, "01 01 01 00  03 02 00 01  05 02 00  0D 00")])
    };
    finishes(&cut(1016), 1016, 11 + 5);
    for e in [1017, 1024] {
        faults(&cut(e), 11, 0, 9 + 10, 3);
    }
}

#[test]
fn the_span_is_as_it_was_at_the_fork() {
    // shares from 1,016, forks a child, then shares from 1,000: the child loads the word in its one argument
    let later = |first: &str, address: u16| {
        let root = format!(
            "01 00 F8 03  {first}  01 01 {:02X} {:02X}  01 02 20 00  09 01 03 01 02  01 00 E8 03  0E 00  0A  0D 03",
            address % 256,
            address / 256
        );
        image(&[routine(4, 0, &root), routine(2, 1, "04 01 00  0D 01")])
    };
    // seven commands (six without the first share), the join that waits, the child, the root again
    let schedule = |steps: usize| format!("{} 02 00 01 00 01 00 02 00 01 00 01 00", "01 00".repeat(steps));
    let good = later("0E 00", 1016);
    assert_eq!(plainly(&good), PlainAnswer::Finished { result: 0, units: 20 + 3 });
    assert_eq!(ran(fed(&good, 1), &schedule(8)).0, Answer::Finished { result: 0, units: 20 + 3 });
    for (bad, steps) in [(later("0E 00", 1000), 8), (later("0E 00", 1015), 8), (later("", 1016), 7)] {
        let child = bad.len() as u16 - 5;
        let (answer, log, _) = ran(fed(&bad, 1), &schedule(steps));
        assert_eq!(answer, Answer::Faulted { number: 10, thread: 1, offset: child });
        assert_eq!((log[steps], log[steps + 1], log[steps + 2]), (0, 10, 19));
        assert!(matches!(plainly(&bad), PlainAnswer::Stopped { number: 10, .. }));
    }
}

#[test]
fn the_join_restores_the_ceiling_and_nothing_else_does() {
    // shares from 1,016, lforks a child that ends, and stores at 1,016 before or after the join
    let root = |between: &str| {
        let code = format!("01 00 F8 03  0E 00  01 01 20 00  08 01 02 00 01  {between}  0D 01");
        image(&[routine(3, 0, &code), routine(1, 0, "0D 00")])
    };
    finishes(&root("0A  05 00 00"), 32, 1 + 1 + 1 + 6 + 1 + 1 + 2 + 1);
    faults(&root("05 00 00  0A"), 10, 0, 9 + 15, 1 + 1 + 1 + 6 + 1);
    // a join with no children restores it too
    finishes(&one(1, "01 00 F8 03  0E 00  0A  05 00 00  0D 00"), 1016, 6);
}

#[test]
fn numbers_in_their_order() {
    // the child returns 0, which would be 31; its slot is pending
    let root = "01 00 20 00  08 01 01 00 00  0E 01  0A  0D 00";
    let image = image(&[routine(2, 0, root), routine(1, 0, "0D 00")]);
    faults(&image, 9, 0, 9 + 9, 1 + 6 + 1);
    let poor = |image, allowance| {
        let fed = Fed { allowance, ..fed(image, 1) };
        let (answer, log, _) = ran(fed, "01 00 01 00 01 00 01 00");
        (plain(fed, &mut [0; 992]), answer, log)
    };
    let stopped = PlainAnswer::Stopped { number: 22, units: 8 };
    assert_eq!(poor(&image, 8), (stopped, Answer::Open { units: 8 }, vec![0, 0, 0, 22]));
    // 31 is 0, and the second step may not be paid for
    let stopped = PlainAnswer::Stopped { number: 22, units: 1 };
    let low = one(1, "01 00 00 00  0E 00  0D 00");
    assert_eq!(poor(&low, 1), (stopped, Answer::Open { units: 1 }, vec![0, 22, 22, 22]));
    let (answer, log, _) = ran(fed(&low, 1), "01 00 01 00 01 00");
    assert_eq!((answer, log), (Answer::Faulted { number: 31, thread: 0, offset: 9 }, vec![0, 31, 19]));
}

#[test]
fn images() {
    assert_eq!(number(&one(1, "0E 00  0D 00")), 0);
    assert_eq!(number(&one(1, "0E 00")), 7);
    assert_eq!(number(&one(1, "0D 00  0E")), 5);
    assert_eq!(number(&one(1, "0E 01  0D 00")), 6);
    assert_eq!(number(&one(2, "0E 01  0D 00")), 0);
    assert_eq!(number(&one(1, "07 03 00  0E 00  0D 00")), 0);
    assert_eq!(number(&one(1, "07 04 00  0E 00  0D 00")), 8);
    assert_eq!(number(&one(1, "0F 00  0D 00")), 4);
}

/// The root stores 7 at 1,016 and shares from there, then lforks twice: a child with nothing to do, and one that loads 1,016.
const TWICE: &str = "01 00 F8 03  01 01 07 00  05 00 01  0E 00  01 02 20 00  08 01 01 00 02";

#[test]
fn a_stolen_child_reads_what_is_shared() {
    let root = routine(4, 0, &format!("{TWICE}  08 02 03 00 02  0A  0D 03"));
    let image = image(&[root, routine(1, 0, "0D 00"), routine(2, 1, "04 01 00  0D 01")]);
    // the stolen child loads and returns on core 1; then the first child, the join and the return
    let (answer, log, _) = ran(fed(&image, 2), &format!("{} 03 01 00 01 01 01 01 01 00 01 00 01 00", "01 00".repeat(6)));
    let units = 1 + 1 + 2 + 1 + 1 + 6 + 6 + 1 + 2 + 1 + 1 + 1;
    assert_eq!((answer, log), (Answer::Finished { result: 7, units }, vec![0; 12]));
    assert_eq!(plainly(&image), PlainAnswer::Finished { result: 7, units });
}

#[test]
fn a_stolen_cut_stops_at_the_ceiling() {
    // slot 3 is 1,016 or 1,017; 1 and 3 are then set by the forks
    let thief = |e: &str| {
        let root = routine(5, 0, &format!("01 03 {e} 03  {TWICE}  08 02 04 00 03  0A  0D 04"));
        let image = image(&[root, routine(1, 0, "0D 00"), routine(2, 1, "0D 00")]);
        let (answer, log, _) = ran(fed(&image, 2), &format!("{} 03 01 00", "01 00".repeat(7)));
        (answer, log[7])
    };
    assert_eq!(thief("F8"), (Answer::Open { units: 19 }, 0));
    assert_eq!(thief("F9"), (Answer::Faulted { number: 11, thread: 0, offset: 13 + 26 }, 11));
}

#[test]
fn a_share_is_no_seed() {
    let root = routine(4, 0, &format!("{TWICE}  0E 02  0A  0D 00"));
    let image = image(&[root, routine(1, 0, "0D 00")]);
    let (answer, log, _) = ran(fed(&image, 2), &format!("{} 03 01 00", "01 00".repeat(6)));
    assert_eq!((answer, log[6]), (Answer::Open { units: 12 }, 18));
}

/// The states after so many steps of core 0, on two cores.
fn states(image: &[u8], steps: usize) -> Vec<Machine> {
    let program = super::image::check(image).expect("a good image");
    let job = Job { program: &program, parameters: &[0; 32] };
    let mut m = Machine::blank(2, 1000);
    m.start(&program, &[]);
    let mut all = vec![m.clone()];
    for _ in 0..steps {
        assert_eq!(m.step(&job, &mut [0; 992], 0), 0);
        all.push(m.clone());
    }
    all
}

#[test]
fn windows_at_each_step() {
    let window = |numbers: [u16; 6]| {
        let [lo, mark, ceiling, hi, from, to] = numbers;
        Window { lo, mark, ceiling, hi, from, to }
    };
    let all = states(&sharing(SHARES, &loads(36)), 10);
    let at = |step: usize, t: usize| all[step].threads[t].window;
    assert_eq!(at(0, 0), window([32, 32, 1024, 1024, 1024, 1024]));
    assert_eq!(at(4, 0), window([32, 32, 1016, 1024, 1024, 1024]));
    assert_eq!(at(6, 0), window([32, 40, 1016, 1024, 1024, 1024]));
    assert_eq!(at(6, 1), window([32, 32, 40, 40, 1016, 1024]));
    assert_eq!(at(8, 1), window([32, 32, 36, 40, 1016, 1024]));
    assert_eq!(at(10, 1), window([32, 34, 36, 40, 1016, 1024]));
    assert_eq!(at(10, 2), window([32, 32, 34, 34, 36, 40]));
    // the child's share at step 8 changes its window, its position and the units alone
    let (before, after) = (&all[7], &all[8]);
    assert_eq!((after.cores, after.ready.len(), after.left), ([1, IDLE, IDLE, IDLE], 0, before.left - 1));
    let (one, other) = (before.threads[1], after.threads[1]);
    assert_eq!((other.status, other.connected, other.at), (Status::Running, true, one.at + 2));
}

#[test]
fn a_join_that_waits_restores_nothing() {
    // shares from 1,016, forks in the words below 40, waits
    let root = "01 00 F8 03  0E 00  01 01 28 00  09 01 02 00 01  0A  0D 00";
    let image = image(&[routine(3, 0, root), routine(1, 0, "0D 00")]);
    let all = states(&image, 5);
    let waiting = all[5].threads[0];
    assert_eq!((waiting.status, waiting.window.mark, waiting.window.ceiling), (Status::Waiting, 40, 1016));
}

/// Four scrubs read one wear table of eight words, 10 to 17 from 1,016 on, while each writes its own eight words from 32, 40, 48 and 56 on: a
/// word is the part's first address and the table's words so far, and what a scrub returns is its last. The root, which forked them by 08, 09,
/// 08 and 09, adds these up and after the join stores the sum at 1,016.
const SCRUBS: &str = "02  0E 00 6A 00  07 01 2F 00
    01 00 F8 03  01 01 01 00  01 02 08 00  01 03 0A 00  05 00 03  02 00 00 01  02 03 03 01  03 02 02 01  06 02 26 00  07 10 00
    01 00 F8 03  0E 00  01 02 08 00  01 04 20 00  02 05 04 02  02 06 05 02  02 07 06 02  02 08 07 02
    08 01 09 04 05  09 01 0A 05 06  08 01 0B 06 07  09 01 0C 07 08  0A
    02 0D 09 0A  02 0D 0D 0B  02 0D 0D 0C  05 00 0D  0D 0D
    02 05 00 06  01 01 F8 03  01 02 01 00  01 03 00 04
    04 04 01  02 05 05 04  05 00 05  02 00 00 02  02 01 01 02  03 06 03 01  06 06 2D 00  07 10 00  0D 05";

/// Its schedules on 1 to 4 cores. 60 commands of the root end with its first lfork; a scrub has 68, and after the join that waits the root has 6.
fn scrub_schedules() -> [String; 4] {
    let steps = |entries: &str, count: usize| format!("{entries} ").repeat(count);
    let alone = [steps("01 00", 60 + 68 + 2 + 68 + 2), steps("02 00", 1), steps("01 00", 68), steps("02 00", 1), steps("01 00", 68)];
    let taken = [steps("01 00", 60 + 68 + 1), steps("02 01", 1), steps("01 00 01 01", 68), steps("01 00", 2), steps("02 01 01 00", 1)];
    // at first there is no seed, nor anything to take; the fourth is stolen when the third has ended
    let stolen = ["03 01 00 02 01 ".to_string(), steps("01 00", 60), steps("03 01 00 03 02 00", 1), steps("01 02", 68)];
    let first = [steps("01 00", 60), steps("03 03 00 03 02 00 03 01 00", 1), steps("01 00", 68 + 1), steps("01 03 01 02 01 01", 68)];
    [
        alone.concat() + "02 00 " + &steps("01 00", 6),
        taken.concat() + &steps("01 01", 68) + "02 01 " + &steps("01 01", 6),
        stolen.concat() + "03 02 00 " + &steps("01 02 01 01 01 00", 68) + &steps("01 00", 6),
        first.concat() + "02 03 " + &steps("01 03", 6) + "01 03",
    ]
}

#[test]
fn four_scrubs_of_one_table() {
    let image = hex(SCRUBS);
    let sums = [10, 21, 33, 46, 60, 75, 91, 108];
    let mut after = [0; 992];
    for (part, address) in (0..).zip([32, 40, 48, 56]) {
        for (i, sum) in sums.into_iter().enumerate() {
            after[8 * part + i] = address + sum;
        }
    }
    after[984..].copy_from_slice(&[608, 11, 12, 13, 14, 15, 16, 17]);
    // of the root 4 + 55 + 8 + 36 + 1 + 3 + 2 + 1, of a scrub 4 + 79 + 1
    let units = 110 + 4 * 84;
    let mut memory = [0; 992];
    let (answer, measure) = measured(fed(&image, 1), &mut memory);
    assert_eq!((answer, memory), (PlainAnswer::Finished { result: 608, units }, after));
    assert_eq!((measure.commands, measure.depth, measure.shared), (69 + 4 * 68, 2, 32));
    let refused: [&[(usize, u8)]; 4] = [&[], &[], &[(0, 18), (1, 16)], &[(343, 19)]];
    for (cores, schedule) in (1..).zip(scrub_schedules()) {
        let (answer, log, memory) = ran(fed(&image, cores), &schedule);
        assert_eq!((answer, memory), (Answer::Finished { result: 608, units }, after), "{cores} cores");
        let others: Vec<(usize, u8)> = log.into_iter().enumerate().filter(|(_, byte)| *byte != 0).collect();
        assert_eq!(others, refused[cores as usize - 1]);
        let (mut memory, mut buffer) = ([0; 992], [0; 1000]);
        let housed = house(fed(&image, cores), &mut memory, &mut buffer);
        assert_eq!((housed.ran.answer, memory), (Answer::Finished { result: 608, units }, after), "house run, {cores} cores");
    }
}
