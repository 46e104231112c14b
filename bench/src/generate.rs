//! Inputs for the differential tests: jobs that behave, jobs with a slip in them, random code, and damaged input of every kind.

use crate::assemble::{image, Code, Routine};
use crate::peer::command::*;
use crate::peer::image::check;
use crate::peer::machine::{Job, Machine, Status, IDLE};
use crate::peer::plain::plain;
use crate::peer::run::Fed;
use crate::peer::PlainAnswer;
use crate::random::Random;

/// Everything that a run is fed.
#[derive(Clone)]
pub struct Case {
    pub image: Vec<u8>,
    pub cores: u8,
    pub arguments: Vec<u32>,
    pub parameters: Vec<u32>,
    pub memory: Vec<u32>,
    pub allowance: u32,
}

impl Case {
    pub fn fed(&self) -> Fed<'_> {
        Fed {
            image: &self.image,
            cores: self.cores,
            arguments: &self.arguments,
            parameters: &self.parameters,
            allowance: self.allowance,
        }
    }
}

/// A window value that is near an edge or anywhere.
fn edge(random: &mut Random) -> u16 {
    match random.below(4) {
        0 => random.pick(&[0, 31, 32, 33, 1023, 1024, 1025, 65535]),
        1 => random.below(32) as u16,
        2 => random.range(32, 1024) as u16,
        _ => random.below(1100) as u16,
    }
}

fn fork_byte(random: &mut Random) -> u8 {
    random.pick(&[LFORK, LFORK, FORK])
}

/// Filler that does no harm: `spare` is a slot that nobody else uses.
fn filler(random: &mut Random, code: &mut Code, spare: u8, lazy: u64) {
    match random.below(8) {
        0 => code.set(spare, random.below(65536) as u16),
        1 => code.add(spare, spare, spare),
        2 => code.subtract(spare, spare, spare),
        3 => {
            code.set(spare, random.below(32) as u16);
            code.load(spare, spare);
        }
        4 if random.one_in(lazy) => code.suspend(),
        5 if random.one_in(lazy) => code.yields(),
        6 if random.one_in(2) => code.go(code.here() + 3),
        _ => {}
    }
}

/// A slip anywhere: a command on any slots.
fn slip(random: &mut Random, code: &mut Code, slots: u8) {
    let any = |random: &mut Random| random.below(slots as u64) as u8;
    let (a, b, c) = (any(random), any(random), any(random));
    match random.below(9) {
        0 => code.returns(a),
        1 => code.add(a, b, c),
        2 => code.subtract(a, b, c),
        3 => code.load(a, b),
        4 => code.store(a, b),
        5 => code.set(a, edge(random)),
        6 => {
            let out = code.if_zero(a);
            code.land(out);
        }
        7 => code.share(a),
        _ => code.join(),
    }
}

/// Where a tree's routine stands: its level, its window's size, its slots, its children so far and those of a round.
struct Stand {
    level: u8,
    size: u16,
    slots: u8,
    forked: u8,
    children: u8,
}

/// A slip at an edge: a load, a store, a share or a fork's cut at lo, at the mark or at hi, or just beside it; a pending slot in each place of
/// a command; a return with pending slots. About half of them are good commands after all.
fn aimed(random: &mut Random, code: &mut Code, stand: &Stand) {
    // slot 6 becomes the address; 5 is free here
    let base = random.pick(&[0, 0, 2]);
    code.set(6, if base == 0 && random.one_in(2) { stand.size } else { 0 });
    code.add(6, base, 6);
    code.set(5, 1);
    match random.below(3) {
        0 => code.subtract(6, 6, 5),
        1 => code.add(6, 6, 5),
        _ => {}
    }
    let child = 7 + random.below(stand.children as u64) as u8;
    let early = 7 + random.below(stand.forked.max(1) as u64) as u8;
    let next = stand.level + 1;
    let op = fork_byte(random);
    match random.below(19) {
        0 | 1 => code.load(6, 6),
        2 | 3 => code.store(6, 5),
        4 | 5 => code.fork(op, next, child, 4, 6),
        6 => code.fork(op, next, early, 4, 2),
        7 => code.fork(op, next, child, 4, early),
        8 => code.fork(op, next, child, early.min(stand.slots - 2), 2),
        9 => code.set(early, 1),
        10 => {
            let operands = random.pick(&[[early, 5, 5], [5, early, 6], [5, 6, early]]);
            if random.one_in(2) {
                code.add(operands[0], operands[1], operands[2]);
            } else {
                code.subtract(operands[0], operands[1], operands[2]);
            }
        }
        11 => {
            if random.one_in(2) { code.load(early, 5) } else { code.load(5, early) }
        }
        12 => {
            if random.one_in(2) { code.store(early, 5) } else { code.store(6, early) }
        }
        13 => {
            let out = code.if_zero(early);
            code.land(out);
        }
        14 => code.returns(5),
        15 | 16 => code.share(6),
        17 => code.share(early),
        _ => slip(random, code, stand.slots),
    }
}

/// Slots of a frame: often such that frames fill a stacklet exactly.
fn frame(random: &mut Random, least: u64) -> u8 {
    let size = random.pick(&[16, 16, 8, 4, 0, 0]);
    if size >= least { size as u8 } else { random.range(least, 16) as u8 }
}

/// A tree of calls, a routine for each level: each cuts its window into parts for its children, joins them and adds up what they return.
/// Slots: 0 lo, 1 data, 2 cut, 3 part, 4 and 5 arguments, 6 spare, 7 on results, the last one a count of rounds.
fn tree(random: &mut Random, slips: u64) -> Vec<u8> {
    let levels = random.range(1, 4) as u8;
    let lazy = random.pick(&[1, 2, 8, 1000]);
    let mut size = 992u16;
    let mut routines = Vec::new();
    for level in 0..levels {
        let children = random.range(1, 5) as u8;
        let slots = frame(random, 8 + children as u64);
        let part = size / (children as u16 + random.below(2) as u16).max(1);
        let mut stand = Stand { level, size, slots, forked: 0, children };
        let mut code = Code::default();
        if level == 0 {
            code.set(0, 32);
        }
        let rounds = slots - 1;
        code.set(rounds, random.range(1, 3) as u16);
        code.set(3, part);
        let again = code.here();
        filler(random, &mut code, 6, lazy);
        // what no child gets may be shared, in two goes
        let (kept, mut ceiling) = (children as u16 * part, size);
        for child in 0..children {
            if random.one_in(4) {
                ceiling = random.range(kept as u64, ceiling as u64) as u16;
                code.set(6, ceiling);
                code.add(6, 0, 6);
                code.share(6);
            }
            code.set(5, 0);
            code.add(4, if child == 0 { 0 } else { 2 }, 5);
            code.set(5, random.below(40) as u16);
            code.add(2, 4, 3);
            code.fork(fork_byte(random), level + 1, 7 + child, 4, 2);
            stand.forked = child + 1;
            if slips != 0 && random.one_in(slips) {
                aimed(random, &mut code, &stand);
            }
            filler(random, &mut code, 6, lazy);
        }
        filler(random, &mut code, 6, lazy);
        code.join();
        if slips != 0 && random.one_in(slips) {
            aimed(random, &mut code, &stand);
            code.join();
        }
        code.set(5, 0);
        for child in 0..children {
            code.add(5, 5, 7 + child);
        }
        if random.one_in(2) {
            code.load(6, 0);
            code.add(5, 5, 6);
            code.store(0, 5);
        }
        code.set(6, 1);
        code.subtract(rounds, rounds, 6);
        let out = code.if_zero(rounds);
        code.go(again);
        code.land(out);
        code.returns(5);
        routines.push(Routine { slots, arguments: if level == 0 { 0 } else { 2 }, code: code.bytes });
        size = part;
    }
    routines.push(leaf(random, lazy, slips));
    image(&routines)
}

/// Slots: 0 lo, 1 a count, 2 one, 3 a sum.
fn leaf(random: &mut Random, lazy: u64, slips: u64) -> Routine {
    let slots = frame(random, 4);
    let mut code = Code::default();
    code.set(2, 1);
    if random.one_in(2) {
        code.load(3, 0);
    }
    let again = code.here();
    let out = code.if_zero(1);
    code.subtract(1, 1, 2);
    code.add(3, 3, 2);
    if random.one_in(3) {
        code.store(0, 3);
    }
    code.go(again);
    code.land(out);
    if random.one_in(lazy) {
        if random.one_in(2) { code.suspend() } else { code.yields() }
    }
    if slips != 0 && random.one_in(2 * slips) {
        if random.one_in(2) {
            code.subtract(0, 0, 2);
            code.store(0, 3);
        } else {
            slip(random, &mut code, slots);
        }
    }
    code.returns(3);
    Routine { slots, arguments: 2, code: code.bytes }
}

/// Routine 0 of a count: it calls itself of one less, once or more, in no window or in all of it.
fn deep(random: &mut Random) -> (Vec<u8>, Vec<u32>) {
    let calls = random.pick(&[1, 1, 2, 2, 3]);
    let slots = frame(random, 5 + calls as u64);
    let kind = random.pick(&[LFORK, FORK, 0, 0]);
    let most = if calls == 1 { 40 } else { 11 - calls as u64 };
    let count = if calls == 1 && random.one_in(2) { random.range(30, 36) } else { random.below(most) };
    let mut code = Code::default();
    let out = code.if_zero(0);
    code.set(1, 1);
    code.subtract(0, 0, 1);
    let cut = random.pick(&[32, 32, 32, 1024]);
    let falling = count > 29 && random.one_in(2);
    if falling {
        // the cut is what is left of the count, above 32; it is out of range from about 32 deep on
        code.set(2, 32 + random.range(30, 32) as u16 - count as u16);
        code.add(2, 0, 2);
        code.set(1, 0);
    } else {
        code.set(2, cut);
    }
    let lazy = random.one_in(2);
    let shared = random.one_in(3);
    if shared {
        // from the cut up: all that the root has, or no word
        code.share(2);
    }
    for call in 0..calls {
        let op = if kind == 0 { random.pick(&[LFORK, FORK]) } else { kind };
        code.fork(op, 0, 3 + call, 0, 2);
        if lazy && random.one_in(2) {
            if random.one_in(2) { code.suspend() } else { code.yields() }
        }
    }
    code.join();
    for call in 0..calls {
        code.add(1, 1, 3 + call);
    }
    code.returns(1);
    code.land(out);
    if lazy && random.one_in(2) {
        code.suspend();
    }
    if shared && cut == 32 && !falling {
        code.set(1, random.range(32, 1023) as u16);
        code.load(0, 1);
    }
    code.returns(0);
    (image(&[Routine { slots, arguments: 1, code: code.bytes }]), vec![count as u32])
}

/// Routines of many frame sizes that call each other down a count, so that frames end anywhere on a stacklet and stacklets run out.
fn crowded(random: &mut Random) -> (Vec<u8>, Vec<u32>) {
    let count = random.range(2, 4) as u8;
    let mut routines = Vec::new();
    for _ in 0..count {
        let calls = random.range(1, 3) as u8;
        let mut code = Code::default();
        let out = code.if_zero(0);
        code.set(1, 1);
        code.subtract(0, 0, 1);
        code.set(2, 32);
        for call in 0..calls {
            let op = random.pick(&[LFORK, LFORK, LFORK, FORK]);
            code.fork(op, random.below(count as u64) as u8, 3 + call, 0, 2);
            if random.one_in(8) {
                code.yields();
            }
        }
        code.join();
        for call in 0..calls {
            code.add(1, 1, 3 + call);
        }
        code.returns(1);
        code.land(out);
        if random.one_in(4) {
            code.suspend();
        }
        code.returns(0);
        routines.push(Routine { slots: frame(random, 3 + calls as u64), arguments: 1, code: code.bytes });
    }
    (image(&routines), vec![random.range(2, 9) as u32])
}

/// Many children of one thread, each of which may stay for long.
fn many(random: &mut Random) -> Vec<u8> {
    let children = random.range(1, 14) as u8;
    let op = fork_byte(random);
    let mixed = random.one_in(3);
    let mut code = Code::default();
    code.set(0, 32);
    code.set(1, random.below(3) as u16);
    for child in 0..children {
        if random.one_in(4) {
            code.add(0, 0, 1);
        }
        code.fork(if mixed { fork_byte(random) } else { op }, 1, 2 + child, 0, 0);
    }
    code.join();
    for child in 0..children {
        code.add(1, 1, 2 + child);
    }
    code.returns(1);
    let mut child = Code::default();
    child.set(1, random.below(9) as u16);
    match random.below(3) {
        0 => child.suspend(),
        1 => child.yields(),
        _ => {}
    }
    if random.one_in(2) {
        // it forks in turn
        child.fork(fork_byte(random), 2, 1, 0, 0);
        child.join();
    }
    child.returns(1);
    let mut last = Code::default();
    if random.one_in(2) {
        last.suspend();
    }
    last.set(0, 7);
    last.returns(0);
    image(&[
        Routine { slots: 16, arguments: 0, code: code.bytes },
        Routine { slots: random.range(2, 16) as u8, arguments: 1, code: child.bytes },
        Routine { slots: random.range(1, 16) as u8, arguments: 0, code: last.bytes },
    ])
}

/// A tree of lforks alone, a routine for each depth, which the plain run finishes unless it is too poor. Each calls the next one and now and
/// then a deeper one. A window is the children's words and then one of its own, so that no tree has more routines than the root has words.
fn lforks(random: &mut Random) -> (Vec<u8>, Vec<u32>) {
    let depth = if random.one_in(2) { random.range(1, 17) } else { random.range(2, 8) } as usize;
    let most = random.pick(&[20, 100, 500, 992]);
    let mut words = vec![0; depth];
    let mut routines = Vec::new();
    for level in (0..depth).rev() {
        let mut calls = Vec::new();
        words[level] = 1;
        for call in 0..if level + 1 < depth { random.range(1, 5) } else { 0 } {
            let any = random.range(level as u64 + 1, depth as u64 - 1) as usize;
            let to = if call == 0 || !random.one_in(4) { level + 1 } else { any };
            // a word is kept for each routine above
            if words[level] + words[to] + level as u16 <= most {
                words[level] += words[to];
                calls.push((to as u8, words[to]));
            }
        }
        routines.insert(0, caller(random, &calls));
    }
    (image(&routines), vec![32])
}

/// A routine of its lo, of calls and the words of their windows: it adds up what they return and its own word, and stores that there.
/// Slots: lo and the calls' cuts, of which each call's lo is then its result; a spare one.
fn caller(random: &mut Random, calls: &[(u8, u16)]) -> Routine {
    let own = calls.len() as u8;
    let spare = own + 1;
    let mut code = Code::default();
    for (slot, (_, words)) in (0..).zip(calls) {
        code.set(spare, *words);
        code.add(slot + 1, slot, spare);
    }
    for (slot, (to, _)) in (0..).zip(calls) {
        if random.one_in(8) {
            code.share(own);
        }
        code.fork(LFORK, *to, slot, slot, slot + 1);
        // an lfork right after another is a seed
        if random.one_in(4) {
            filler(random, &mut code, spare, u64::MAX);
        }
    }
    code.join();
    for _ in 0..random.below(4) {
        filler(random, &mut code, spare, u64::MAX);
    }
    code.load(spare, own);
    for slot in 0..own {
        code.add(spare, spare, slot);
    }
    code.store(own, spare);
    code.returns(spare);
    Routine { slots: frame(random, spare as u64 + 1), arguments: 1, code: code.bytes }
}

/// How the routines of a tree that shares are made.
struct Habit {
    lazy: u64,
    slips: u64,
    /// lforks alone, and no suspend or yield
    called: bool,
}

impl Habit {
    fn op(&self, random: &mut Random) -> u8 {
        if self.called { LFORK } else { random.pick(&[LFORK, FORK]) }
    }
    fn slips(&self, random: &mut Random) -> bool {
        self.slips != 0 && random.one_in(self.slips)
    }
}

/// A tree of calls, a routine for each level, in which routines share the tops of their windows and read what was shared above them.
/// Slots: 0 lo, 1 hi, 2 the address of a word to read, 3 spare, 4 to 6 a child's first three, 7 a sum, 8 one, 9 spare, 10 on results.
fn shares(random: &mut Random, slips: u64) -> Vec<u8> {
    let called = random.one_in(3);
    let lazy = if called { u64::MAX } else { random.pick(&[1, 2, 8, 1000]) };
    let habit = Habit { lazy, slips, called };
    let levels = random.range(1, 3) as u8;
    let mut size = 992u16;
    let mut routines = Vec::new();
    for level in 0..levels {
        let (routine, part) = sharer(random, &habit, level, size);
        routines.push(routine);
        size = part;
    }
    routines.push(reader(random, &habit, size));
    image(&routines)
}

/// A routine of a tree that shares, by its level and the words of its window, and the words of its children's windows.
fn sharer(random: &mut Random, habit: &Habit, level: u8, size: u16) -> (Routine, u16) {
    let children = random.range(1, 4) as u8;
    let table = random.pick(&[0, 1, 1, 2, 8]).min(size);
    let part = (size - table) / (children as u16 + random.below(2) as u16);
    let mut code = Code::default();
    if level == 0 {
        code.set(0, 32);
        code.set(1, 1024);
        code.set(2, random.below(32) as u16);
    }
    code.set(8, 1);
    for _ in 0..random.pick(&[1, 1, 2]) {
        forks_that_share(random, habit, &mut code, level, [size, part, children as u16]);
        code.join();
        for child in 0..children {
            code.add(7, 7, 10 + child);
        }
        // the highest word, which mostly was shared
        if size > 0 && random.one_in(2) {
            code.subtract(9, 1, 8);
            code.store(9, 7);
        }
    }
    code.load(9, 2);
    code.add(7, 7, 9);
    code.returns(7);
    let arguments = if level == 0 { 0 } else { 3 };
    (Routine { slots: frame(random, 11 + children as u64), arguments, code: code.bytes }, part)
}

/// The forks of a routine by the words of its window and of a child's, and the number of its children. Before each it may share more.
fn forks_that_share(random: &mut Random, habit: &Habit, code: &mut Code, level: u8, [size, part, children]: [u16; 3]) {
    let mut ceiling = size;
    code.set(9, 0);
    code.add(5, 0, 9);
    code.add(6, 2, 9);
    for child in 0..children as u8 {
        if random.one_in(2) {
            ceiling = random.range((part * children) as u64, ceiling as u64) as u16;
            code.set(9, ceiling);
            code.add(9, 0, 9);
            code.share(9);
            if ceiling < size {
                code.set(6, random.range(ceiling as u64, size as u64 - 1) as u16);
                code.add(6, 0, 6);
            }
        }
        code.set(9, 0);
        code.add(4, 5, 9);
        code.set(9, part);
        code.add(5, 4, 9);
        code.fork(habit.op(random), level + 1, 10 + child, 4, 5);
        if habit.slips(random) {
            let fork = [habit.op(random), level + 1, 10 + children as u8];
            missed(random, code, Some(fork), 10 + child);
        }
        filler(random, code, 9, habit.lazy);
    }
    // the sharer reads on in what it shares
    if random.one_in(3) && part * children < size {
        code.subtract(9, 1, 8);
        code.load(9, 9);
    }
}

/// The lowest routine of a tree that shares, by the words of its window.
fn reader(random: &mut Random, habit: &Habit, size: u16) -> Routine {
    let mut code = Code::default();
    code.set(8, 1);
    code.load(7, 2);
    filler(random, &mut code, 9, habit.lazy);
    if random.one_in(4) {
        code.share(random.pick(&[0, 1]));
        code.join();
    }
    if habit.slips(random) {
        missed(random, &mut code, None, 7);
    }
    if size > 0 && random.one_in(2) {
        code.store(0, 7);
    }
    code.load(9, 2);
    code.add(7, 7, 9);
    code.returns(7);
    Routine { slots: frame(random, 10), arguments: 3, code: code.bytes }
}

/// A slip about what is shared: a share, a load, a store or a fork's cut at lo, at hi, at the mark, at a word to read or at one that is
/// shared, or up to two words beside it; a share of 65,536 more; a share of a pending slot. About half of them are good after all.
fn missed(random: &mut Random, code: &mut Code, fork: Option<[u8; 3]>, pending: u8) {
    let base = random.pick(&[0, 1, 2, 5, 6, 6]);
    code.set(9, random.pick(&[0, 0, 1, 2]));
    if random.one_in(2) { code.add(9, base, 9) } else { code.subtract(9, base, 9) }
    match (random.below(10), fork) {
        (0..=2, _) => code.share(9),
        (3, _) => {
            code.set(3, 65_535);
            code.add(9, 9, 3);
            code.add(9, 9, 8);
            code.share(9);
        }
        (4 | 5, _) => {
            code.load(9, 9);
            code.add(7, 7, 9);
        }
        (6, _) => code.store(9, 8),
        (7 | 8, Some([op, r, d])) => code.fork(op, r, d, 4, 9),
        _ => code.share(pending),
    }
}

/// Random commands, all in range, with targets at commands' starts.
fn wild(random: &mut Random) -> (Vec<u8>, Vec<u32>) {
    let count = random.pick(&[1, 1, 2, 3, 5, 32]) as u8;
    let rows: Vec<(u8, u8)> = (0..count)
        .map(|_| {
            let slots = random.range(1, 16);
            (slots as u8, random.below(slots.min(4) + 1) as u8)
        })
        .collect();
    let mut routines = Vec::new();
    for &(slots, arguments) in &rows {
        let length = random.range(1, if count == 32 { 6 } else { 24 });
        let mut code = Vec::new();
        let mut starts = Vec::new();
        let mut targets = Vec::new();
        let slot = |random: &mut Random| random.below(slots as u64) as u8;
        for _ in 0..length {
            starts.push(code.len() as u16);
            match random.below(18) {
                0..=3 => {
                    code.extend([SET, slot(random)]);
                    code.extend(edge(random).to_le_bytes());
                }
                4 => code.extend([ADD, slot(random), slot(random), slot(random)]),
                5 => code.extend([SUBTRACT, slot(random), slot(random), slot(random)]),
                6 => code.extend([LOAD, slot(random), slot(random)]),
                7 => code.extend([STORE, slot(random), slot(random)]),
                8 => {
                    code.extend([IF_ZERO, slot(random), 0, 0]);
                    targets.push(code.len() - 2);
                }
                9..=11 => {
                    let r = random.below(count as u64) as u8;
                    let run = rows[r as usize].1;
                    if run <= slots {
                        let a = random.below((slots - run) as u64 + 1) as u8;
                        let w = slot(random);
                        if !random.one_in(4) {
                            code.extend([SET, w]);
                            code.extend((random.range(30, 60) as u16).to_le_bytes());
                            starts.push(code.len() as u16);
                        }
                        code.extend([fork_byte(random), r, slot(random), a, w]);
                    } else {
                        code.push(JOIN);
                    }
                }
                12 | 13 => code.push(JOIN),
                14 => code.push(random.pick(&[SUSPEND, YIELD])),
                15 | 16 => {
                    let s = slot(random);
                    if !random.one_in(4) {
                        code.extend([SET, s]);
                        code.extend((random.range(30, 90) as u16).to_le_bytes());
                        starts.push(code.len() as u16);
                    }
                    code.extend([SHARE, s]);
                }
                _ => code.extend([RETURN, slot(random)]),
            }
        }
        starts.push(code.len() as u16);
        if random.one_in(4) {
            code.extend([GO, 0, 0]);
            targets.push(code.len() - 2);
        } else {
            code.extend([RETURN, slot(random)]);
        }
        for place in targets {
            let to = random.pick(&starts).to_le_bytes();
            code[place..place + 2].copy_from_slice(&to);
        }
        routines.push(Routine { slots, arguments, code });
    }
    let arguments = (0..rows[0].1).map(|_| value(random)).collect();
    (image(&routines), arguments)
}

fn value(random: &mut Random) -> u32 {
    match random.below(4) {
        0 => random.next() as u32,
        1 => edge(random) as u32,
        _ => random.below(20) as u32,
    }
}

/// A job that a run takes.
pub fn job(random: &mut Random) -> Case {
    let (image, arguments) = match random.below(30) {
        0..=3 => (tree(random, 0), vec![]),
        4..=5 => (tree(random, 4), vec![]),
        6..=9 => (tree(random, 25), vec![]),
        10..=12 => deep(random),
        13..=14 => crowded(random),
        15..=16 => (many(random), vec![]),
        17..=18 => lforks(random),
        19..=21 => wild(random),
        22..=24 => (shares(random, 0), vec![]),
        25..=26 => (shares(random, 3), vec![]),
        _ => (shares(random, 12), vec![]),
    };
    let parameters = (0..32).map(|_| value(random)).collect();
    let memory = (0..992).map(|_| value(random)).collect();
    let mut case =
        Case { image, cores: random.range(1, 4) as u8, arguments, parameters, memory, allowance: 100_000 };
    let ended = plain(case.fed(), &mut case.memory.clone());
    case.allowance = match (ended, random.below(6)) {
        // the command that faults, just not paid for or just paid for
        (PlainAnswer::Stopped { number: 9..=12 | 31, units }, 0..=2) => units + random.pick(&[0, 0, 1, 1, 2, 5, 6, 11, 12]),
        (_, 0) => random.below(60) as u32,
        // near what the plain run takes
        (PlainAnswer::Finished { units, .. } | PlainAnswer::Stopped { units, .. }, 1 | 2) => {
            (units + random.below(8) as u32).saturating_sub(4)
        }
        (_, 3) => u32::MAX,
        _ => random.below(20_000) as u32,
    };
    // a plain run of a wild loop must end
    if case.allowance > 1_000_000 && random.one_in(2) || runs_on(&case) {
        case.allowance = case.allowance.min(random.below(200_000) as u32);
    }
    case
}

/// Whether the plain run takes more than a million units.
fn runs_on(case: &Case) -> bool {
    let fed = Fed { allowance: 1_000_000, ..case.fed() };
    matches!(plain(fed, &mut case.memory.clone()), PlainAnswer::Stopped { number: 22, .. })
}

/// An image that is accepted.
pub fn good_image(random: &mut Random) -> Vec<u8> {
    match random.below(4) {
        0 => wild(random).0,
        1 => tree(random, 9),
        2 => shares(random, 9),
        _ => many(random),
    }
}

/// An image with something wrong in it, or not.
pub fn damaged_image(random: &mut Random) -> Vec<u8> {
    let mut bytes = good_image(random);
    for _ in 0..random.pick(&[1, 1, 1, 2, 5]) {
        if bytes.is_empty() {
            break;
        }
        let at = random.below(bytes.len() as u64) as usize;
        let head = random.below((bytes.len() as u64).min(9)) as usize;
        match random.below(12) {
            0..=3 => bytes[at] = random.byte(),
            4 => bytes[at] = random.below(18) as u8,
            5 => bytes[head] = random.pick(&[0, 1, 2, 16, 17, 32, 33, 255]),
            6 => bytes.truncate(at),
            7 => bytes.push(random.byte()),
            8 => bytes[at] = bytes[at].wrapping_add(1),
            9 => end_damaged(random, &mut bytes),
            10 => {
                // a last routine's code made longer or shorter, its row with it
                bytes = resized(random, bytes);
            }
            _ => bytes.resize(random.pick(&[0, 1, 4095, 4096, 4097, 5000]), 0),
        }
    }
    bytes
}

/// Another last command.
fn end_damaged(random: &mut Random, bytes: &mut [u8]) {
    let n = bytes.len();
    if n > 2 {
        bytes[n - 2] = random.pick(&[RETURN, JOIN, SUSPEND, SHARE, 0x0F, GO, SET]);
        if random.one_in(2) {
            bytes[n - 1] = random.pick(&[0, JOIN, YIELD, RETURN, 15, 16]);
        }
    }
}

/// The last routine's code cut or grown, with a row that says so.
fn resized(random: &mut Random, mut bytes: Vec<u8>) -> Vec<u8> {
    let count = bytes[0] as usize;
    let row = 4 * count - 1;
    if count == 0 || bytes.len() < row + 2 {
        return bytes;
    }
    let change = random.range(1, 4);
    let length = u16::from_le_bytes([bytes[row], bytes[row + 1]]);
    let to = if random.one_in(2) {
        for _ in 0..change {
            bytes.push(random.below(16) as u8);
        }
        length.wrapping_add(change as u16)
    } else {
        bytes.truncate(bytes.len().saturating_sub(change as usize));
        length.wrapping_sub(change as u16)
    };
    if bytes.len() >= row + 2 {
        bytes[row..row + 2].copy_from_slice(&to.to_le_bytes());
    }
    bytes
}

/// Images of exactly the greatest length and one more, all of one command or of many.
pub fn large_image(random: &mut Random) -> Vec<u8> {
    let count = random.pick(&[1u16, 1, 2, 32]);
    let total = 4096 - 1 - 4 * count + if random.one_in(3) { 1 } else { 0 };
    let mut routines = Vec::new();
    for r in 0..count {
        let length = total / count + if r == 0 { total % count } else { 0 };
        let mut code = Code::default();
        let kind = random.below(6);
        while code.here() + 7 <= length {
            match kind {
                0 => code.join(),
                1 => code.add(0, 1, 2),
                2 => code.fork(LFORK, random.below(count as u64) as u8, 3, 0, 4),
                5 => code.share(0),
                3 => {
                    let target = random.pick(&[0, code.here()]);
                    code.go(target);
                }
                _ => {
                    code.if_zero(0);
                }
            }
        }
        while code.here() + 2 < length {
            code.join();
        }
        code.returns(0);
        routines.push(Routine { slots: 16, arguments: 0, code: code.bytes });
    }
    image(&routines)
}

/// A case with one thing wrong, or two.
pub fn damage(random: &mut Random, case: &mut Case, schedule: &mut Vec<u8>, log: &mut Vec<u8>) {
    for _ in 0..random.pick(&[1, 1, 2]) {
        match random.below(9) {
            0 => case.cores = random.pick(&[0, 5, 6, 32, 255]),
            1 => {
                case.image = damaged_image(random);
                // it may have become a loop, of which the plain run must end
                if runs_on(case) {
                    case.allowance = case.allowance.min(200_000);
                }
            }
            2 => {
                if random.one_in(2) || case.arguments.is_empty() {
                    case.arguments.push(1);
                } else {
                    case.arguments.pop();
                }
            }
            3 => case.parameters.resize(random.pick(&[0, 31, 33, 64]), 5),
            4 => case.memory.resize(random.pick(&[0, 991, 993, 1024]), 5),
            5 => {
                let to = random.below(log.len() as u64 + 1) as usize;
                log.truncate(to);
            }
            6 => {
                let at = random.below(schedule.len() as u64 + 1) as usize;
                schedule.insert(at, random.pick(&[0, 5, 6, 255]));
            }
            7 => {
                schedule.pop();
            }
            _ => schedule.resize(random.pick(&[32_766, 32_767, 32_768, 32_769, 32_770, 40_000]), 1),
        }
    }
}

/// How a schedule is chosen.
struct Policy {
    /// one entry in so many is any entry
    noise: u64,
    /// one turn in so many goes to another core
    turn: u64,
    /// one idle core's turn in so many steals though a thread is ready
    thief: u64,
    /// one turn in so many enables
    wake: u64,
}

/// Any entry, mostly of cores and threads that there are.
fn any_entry(random: &mut Random, schedule: &mut Vec<u8>) {
    let core = random.pick(&[0, 0, 1, 1, 2, 3, 4, 255]);
    let thread = random.pick(&[0, 0, 1, 1, 2, 3, 4, 7, 15, 31, 32, 255]);
    match random.below(8) {
        0..=3 => schedule.extend([1, core]),
        4 | 5 => schedule.extend([2, core]),
        6 => schedule.extend([3, core, thread]),
        _ => schedule.extend([4, thread]),
    }
}

/// A schedule of about `length` entries. The second implementation's machine goes along, so that most entries can be ones that it accepts.
pub fn schedule(random: &mut Random, case: &Case, length: usize) -> Vec<u8> {
    let mut bytes = Vec::new();
    let policy = Policy {
        noise: random.pick(&[1, 4, 20, 200, 100_000]),
        turn: random.pick(&[1, 2, 5, 50]),
        thief: random.pick(&[1, 3, 100]),
        wake: random.pick(&[2, 20, 200, 100_000]),
    };
    let program = check(&case.image).ok();
    let (Some(program), Ok(parameters), Ok(memory)) =
        (program, case.parameters[..].try_into(), case.memory[..].try_into())
    else {
        for _ in 0..length {
            any_entry(random, &mut bytes);
        }
        return bytes;
    };
    let mut memory: [u32; 992] = memory;
    let job = Job { program: &program, parameters };
    let mut m = Machine::blank(case.cores, case.allowance);
    m.start(&program, &case.arguments);
    let mut core = 0;
    let mut in_vain = 0;
    // any entries at all are mostly refused: a few hundred are enough
    let length = if policy.noise == 1 { length.min(300) } else { length };
    for _ in 0..length {
        if bytes.len() + 3 > 32_768 || in_vain > 40 && random.one_in(4) {
            break;
        }
        let at = bytes.len();
        if random.one_in(policy.noise) {
            any_entry(random, &mut bytes);
        } else {
            if random.one_in(policy.turn) {
                core = random.below(case.cores as u64) as u8;
            }
            chosen(random, &policy, &m, &job, core, &mut bytes);
        }
        let logged = match bytes[at..] {
            [1, c] => m.step(&job, &mut memory, c),
            [2, c] => m.take(c),
            [3, c, t] => m.steal(&job, c, t),
            [_, t] => m.enable(t),
            _ => unreachable!("an entry has two or three bytes"),
        };
        // a core that is stuck lets another one go on; after the end a few entries are enough
        in_vain += 1;
        if logged != 0 {
            core = random.below(case.cores as u64) as u8;
        } else {
            in_vain = 0;
        }
        if m.over && random.one_in(8) {
            break;
        }
    }
    bytes
}

/// An entry that the machine is likely to accept.
fn chosen(random: &mut Random, policy: &Policy, m: &Machine, job: &Job, core: u8, bytes: &mut Vec<u8>) {
    let suspended: Vec<u8> = (0..32).filter(|t| m.threads[*t as usize].status == Status::Suspended).collect();
    let idle = m.cores.iter().all(|t| *t == IDLE);
    if !suspended.is_empty() && (random.one_in(policy.wake) || idle && m.ready.is_empty()) {
        bytes.extend([4, random.pick(&suspended)]);
        return;
    }
    if m.cores[core as usize & 3] != IDLE {
        bytes.extend([1, core]);
        return;
    }
    let seeds: Vec<u8> = (0..32).filter(|t| m.has_seed(job, *t)).collect();
    if !seeds.is_empty() && (m.ready.is_empty() || random.one_in(policy.thief)) {
        bytes.extend([3, core, random.pick(&seeds)]);
        return;
    }
    let busy: Vec<u8> = (0..m.count).filter(|c| m.cores[*c as usize & 3] != IDLE).collect();
    if m.ready.is_empty() && !busy.is_empty() && !random.one_in(20) {
        bytes.extend([1, random.pick(&busy)]);
    } else {
        bytes.extend([2, core]);
    }
}
