//! Jobs and schedules that the benchmarks time.

use crate::assemble::{image, Code, Routine};
use crate::generate::Case;
use crate::peer::command::*;
use crate::peer::house::house;
use crate::peer::image::check;
use crate::peer::machine::{Job, Machine};

fn case(image: Vec<u8>, cores: u8, arguments: Vec<u32>) -> Case {
    Case { image, cores, arguments, parameters: vec![3; 32], memory: vec![5; 992], allowance: u32::MAX }
}

/// Commands 02, 03, 04, 05, 01, 06 and 07 over and over. Slot 0 is an address of the thread's own window.
fn endless(code: &mut Code) {
    code.set(1, 1);
    let again = code.here();
    code.add(2, 2, 1);
    code.subtract(3, 2, 1);
    code.load(4, 0);
    code.store(0, 3);
    code.set(5, 7);
    let out = code.if_zero(1);
    code.go(again);
    code.land(out);
    code.returns(2);
}

/// One thread in an endless loop.
pub fn hot() -> Case {
    let mut code = Code::default();
    code.set(0, 40);
    endless(&mut code);
    case(image(&[Routine { slots: 6, arguments: 0, code: code.bytes }]), 1, vec![])
}

/// Four threads in endless loops, one to a core, and the schedule that steps the cores in turn.
pub fn hot_on_four() -> (Case, Vec<u8>) {
    let mut root = Code::default();
    root.set(0, 32);
    root.set(1, 10);
    for child in 0..3 {
        root.add(6, 0, 1);
        root.fork(FORK, 1, 7 + child, 0, 6);
        root.add(0, 0, 1);
    }
    endless(&mut root);
    let mut child = Code::default();
    endless(&mut child);
    let routines = [
        Routine { slots: 10, arguments: 0, code: root.bytes },
        Routine { slots: 6, arguments: 1, code: child.bytes },
    ];
    let mut schedule = [1, 0].repeat(11);
    schedule.extend([2, 1, 2, 2, 2, 3]);
    while schedule.len() + 8 <= 32_768 {
        schedule.extend([1, 0, 1, 1, 1, 2, 1, 3]);
    }
    (case(image(&routines), 4, vec![]), schedule)
}

/// `01 00` as often as a schedule can hold it.
pub fn steps() -> Vec<u8> {
    [1, 0].repeat(16_384)
}

/// An lfork, its child's return, the join and a go to, over and over.
pub fn calls() -> Case {
    let mut root = Code::default();
    root.set(0, 32);
    let again = root.here();
    root.fork(LFORK, 1, 1, 0, 0);
    root.join();
    root.go(again);
    let mut child = Code::default();
    child.returns(0);
    let routines = [
        Routine { slots: 4, arguments: 0, code: root.bytes },
        Routine { slots: 4, arguments: 1, code: child.bytes },
    ];
    case(image(&routines), 1, vec![])
}

/// Four lforks of short children and a join, over and over: with four cores idle ones steal three of the four.
pub fn steals() -> (Case, Vec<u8>) {
    let mut root = Code::default();
    root.set(0, 32);
    let again = root.here();
    for child in 0..4 {
        root.fork(LFORK, 1, 1 + child, 0, 0);
    }
    root.join();
    root.go(again);
    let mut child = Code::default();
    child.set(1, 3);
    child.add(0, 0, 1);
    child.subtract(0, 0, 1);
    child.returns(0);
    let routines = [
        Routine { slots: 6, arguments: 0, code: root.bytes },
        Routine { slots: 4, arguments: 1, code: child.bytes },
    ];
    let case = case(image(&routines), 4, vec![]);
    let schedule = scheduled(&case);
    (case, schedule)
}

/// Two 09s with a yield between them, a join and a go to, over and over; each child yields once. With two cores every core's thread leaves
/// it again and again, and takes follow.
pub fn yields() -> (Case, Vec<u8>) {
    let mut root = Code::default();
    root.set(0, 32);
    let again = root.here();
    root.fork(FORK, 1, 1, 0, 0);
    root.yields();
    root.fork(FORK, 1, 2, 0, 0);
    root.join();
    root.go(again);
    let mut child = Code::default();
    child.yields();
    child.set(1, 3);
    child.returns(0);
    let routines = [
        Routine { slots: 6, arguments: 0, code: root.bytes },
        Routine { slots: 4, arguments: 1, code: child.bytes },
    ];
    let case = case(image(&routines), 2, vec![]);
    let schedule = scheduled(&case);
    (case, schedule)
}

/// Four scrubs read one wear table of eight words while each writes its own part, 60 times over: the root shares the table and lforks them,
/// and after the join it writes a word of the table. With four cores idle ones steal three of the four.
/// Slots: 1 the table, 2 one, 3 the words of a part, 4 the last word's address, 6 on the parts and their end, 11 on results, 15 a count.
pub fn scrubs() -> (Case, Vec<u8>) {
    let mut root = Code::default();
    for (slot, value) in [(1, 1016), (2, 1), (3, 246), (4, 1023), (6, 32), (15, 60)] {
        root.set(slot, value);
    }
    for part in 6..10 {
        root.add(part + 1, part, 3);
    }
    let again = root.here();
    root.share(1);
    for scrub in 0..4 {
        root.fork(LFORK, 1, 11 + scrub, 6 + scrub, 7 + scrub);
    }
    root.join();
    root.store(4, 15);
    root.subtract(15, 15, 2);
    let out = root.if_zero(15);
    root.go(again);
    root.land(out);
    root.returns(14);
    let case = case(image(&[Routine { slots: 16, arguments: 0, code: root.bytes }, scrub()]), 4, vec![]);
    let schedule = scheduled(&case);
    (case, schedule)
}

/// A scrub of its part's first word: it adds up the words of the table and stores each sum there.
/// Slots: 0 the part, 1 a word of the table, 2 one, 3 the table's end, 4 the word, 5 the sum, 6 how many are left.
fn scrub() -> Routine {
    let mut code = Code::default();
    code.set(1, 1016);
    code.set(2, 1);
    code.set(3, 1024);
    let again = code.here();
    code.load(4, 1);
    code.add(5, 5, 4);
    code.store(0, 5);
    code.add(1, 1, 2);
    code.subtract(6, 3, 1);
    let out = code.if_zero(6);
    code.go(again);
    code.land(out);
    code.returns(5);
    Routine { slots: 7, arguments: 1, code: code.bytes }
}

/// The entries that the house run writes.
pub fn scheduled(case: &Case) -> Vec<u8> {
    let mut buffer = vec![0; 32_768];
    let housed = house(case.fed(), &mut case.memory.clone(), &mut buffer);
    buffer.truncate(housed.used);
    buffer
}

/// How many of a schedule's entries begin with a byte.
pub fn entries_of(schedule: &[u8], byte: u8) -> usize {
    let mut count = 0;
    let mut at = 0;
    while at < schedule.len() {
        count += (schedule[at] == byte) as usize;
        at += if schedule[at] == 3 { 3 } else { 2 };
    }
    count
}

/// Fibonacci numbers by two lforks a call.
pub fn fibonacci(n: u32) -> Case {
    let mut code = Code::default();
    let zero = code.if_zero(0);
    code.set(1, 1);
    code.subtract(0, 0, 1);
    let one = code.if_zero(0);
    code.set(2, 32);
    code.fork(LFORK, 0, 3, 0, 2);
    code.subtract(0, 0, 1);
    code.fork(LFORK, 0, 4, 0, 2);
    code.join();
    code.add(5, 3, 4);
    code.returns(5);
    code.land(zero);
    code.returns(0);
    code.land(one);
    code.returns(1);
    case(image(&[Routine { slots: 6, arguments: 1, code: code.bytes }]), 1, vec![n])
}

/// A loop that calls a leaf of `commands` commands, its return among them, `rounds` times.
pub fn leaves(commands: usize, rounds: u16) -> Case {
    let mut root = Code::default();
    root.set(0, 32);
    root.set(1, rounds);
    root.set(2, 1);
    let again = root.here();
    root.fork(LFORK, 1, 3, 0, 0);
    root.join();
    root.subtract(1, 1, 2);
    let out = root.if_zero(1);
    root.go(again);
    root.land(out);
    root.returns(3);
    let mut leaf = Code::default();
    for _ in 1..commands {
        leaf.add(1, 1, 0);
    }
    leaf.returns(1);
    let routines = [
        Routine { slots: 4, arguments: 0, code: root.bytes },
        Routine { slots: 4, arguments: 1, code: leaf.bytes },
    ];
    case(image(&routines), 1, vec![])
}

/// A loop of commands 01 to 07, `rounds` times.
pub fn counted(rounds: u16) -> Case {
    let mut code = Code::default();
    code.set(0, 40);
    code.set(1, rounds);
    code.set(2, 1);
    let again = code.here();
    code.add(3, 3, 2);
    code.subtract(1, 1, 2);
    code.load(4, 0);
    code.store(0, 3);
    code.set(5, 7);
    let out = code.if_zero(1);
    code.go(again);
    code.land(out);
    code.returns(3);
    case(image(&[Routine { slots: 6, arguments: 0, code: code.bytes }]), 1, vec![])
}

/// The commands and forks that a job with no 09, suspend or yield carries out.
pub fn commands(case: &Case) -> (u64, u64) {
    let program = check(&case.image).expect("a good image");
    let parameters = case.parameters[..].try_into().expect("32 parameter words");
    let mut memory: [u32; 992] = case.memory[..].try_into().expect("992 memory words");
    let job = Job { program: &program, parameters };
    let mut m = Machine::blank(1, case.allowance);
    m.start(&program, &case.arguments);
    let (mut commands, mut forks) = (0, 0);
    while !m.over {
        let at = m.threads[m.cores[0] as usize & 31].at;
        forks += matches!(program.word(at).op(), LFORK | FORK) as u64;
        m.step(&job, &mut memory, 0);
        commands += 1;
    }
    (commands, forks)
}

/// An image of 4,096 bytes whose commands are all of one kind.
pub fn large(kind: u8) -> Vec<u8> {
    let mut code = Code::default();
    let length = 4096 - 5;
    while code.here() + 7 <= length {
        match kind {
            JOIN => code.join(),
            ADD => code.add(0, 1, 2),
            LFORK => code.fork(LFORK, 0, 3, 0, 4),
            _ => code.go(0),
        }
    }
    while code.here() + 2 < length {
        code.join();
    }
    code.returns(0);
    image(&[Routine { slots: 16, arguments: 0, code: code.bytes }])
}

/// An image of 4,096 bytes with every command of document 01 in turn.
pub fn mixed() -> Vec<u8> {
    let mut code = Code::default();
    let length = 4096 - 5;
    code.set(0, 32);
    let mut round = 0;
    while code.here() + 48 <= length {
        let again = code.here();
        code.set(1, 1000 + 77 * round);
        code.add(2, 2, 1);
        code.subtract(3, 2, 1);
        code.load(4, 0);
        code.store(0, 3);
        let out = code.if_zero(1);
        code.fork(LFORK, 0, 5, 0, 0);
        code.fork(FORK, 0, 6, 0, 0);
        code.join();
        code.yields();
        code.go(again);
        code.land(out);
        code.suspend();
        round += 1;
    }
    while code.here() + 2 < length {
        code.join();
    }
    code.returns(2);
    image(&[Routine { slots: 16, arguments: 0, code: code.bytes }])
}

/// Document 01's smallest example: one return.
pub fn smallest() -> Vec<u8> {
    image(&[Routine { slots: 1, arguments: 0, code: vec![RETURN, 0] }])
}
