//! The machine: tables, Start and the four entries.

use super::command::*;
use super::image::{Program, Row};
use super::run::Ran;
use super::window::Window;
use super::Answer;

pub const IDLE: u8 = 32;
pub const NOBODY: u8 = 32;
/// The stacklets' 1,024 words, and room for sixteen from any of them.
pub const WORDS: usize = 1024 + 16;

#[derive(Clone, Copy, Debug, Default, PartialEq, Eq)]
#[repr(u8)]
pub enum Status {
    #[default]
    Free,
    Running,
    Ready,
    Suspended,
    Waiting,
    Lent,
}

/// A thread record. `at` is the next command's first byte in the image, `base` the frame's first word among all 1,024.
#[derive(Clone, Copy, Debug, Default)]
pub struct Thread {
    pub at: u16,
    pub base: u16,
    pub pending: u16,
    pub window: Window,
    pub status: Status,
    pub connected: bool,
    pub routine: u8,
    pub parent: u8,
    pub result_slot: u8,
    pub children: u8,
}

/// A line of at most 32 numbers.
#[derive(Clone, Copy, Debug)]
pub struct Line {
    places: [u8; 32],
    head: u8,
    length: u8,
}

impl Line {
    #[inline(always)]
    fn ascending(from: u8, to: u8) -> Line {
        let mut places = [0; 32];
        for (place, n) in places.iter_mut().zip(from..to) {
            *place = n;
        }
        Line { places, head: 0, length: to - from }
    }
    #[inline(always)]
    pub fn is_empty(&self) -> bool {
        self.length == 0
    }
    pub fn len(&self) -> u8 {
        self.length
    }
    #[inline(always)]
    pub fn give(&mut self, n: u8) {
        self.places[(self.head + self.length) as usize & 31] = n;
        self.length += 1;
    }
    #[inline(always)]
    pub fn take(&mut self) -> u8 {
        let n = self.places[self.head as usize & 31];
        self.head = (self.head + 1) & 31;
        self.length -= 1;
        n
    }
}

/// What a run is fed and does not change.
pub struct Job<'a> {
    pub program: &'a Program,
    pub parameters: &'a [u32; 32],
}

#[derive(Clone)]
pub struct Machine {
    pub threads: [Thread; 32],
    pub cores: [u8; 4],
    pub count: u8,
    pub over: bool,
    pub answer: Answer,
    pub allowance: u32,
    /// units of the allowance that are left
    pub left: u32,
    pub free_threads: Line,
    pub free_stacklets: Line,
    pub ready: Line,
    pub tops: [u8; 16],
    pub words: [u32; WORDS],
}

/// How a fork's child is placed.
#[derive(Clone, Copy, PartialEq, Eq)]
enum Placed {
    Called,
    Queued,
    Stolen(u8),
}

impl Machine {
    /// A machine with nothing started. It is a literal, so that it is laid where it is to stand and not copied there.
    #[inline(always)]
    pub fn blank(cores: u8, allowance: u32) -> Machine {
        Machine {
            threads: [Thread { parent: NOBODY, ..Thread::default() }; 32],
            cores: [IDLE; 4],
            count: cores,
            over: false,
            answer: Answer::Open { units: 0 },
            allowance,
            left: allowance,
            free_threads: Line::ascending(1, 32),
            free_stacklets: Line::ascending(1, 16),
            ready: Line::ascending(0, 0),
            tops: [0; 16],
            words: [0; WORDS],
        }
    }

    pub fn start(&mut self, program: &Program, arguments: &[u32]) {
        let row = program.row(0);
        self.threads[0] = Thread {
            at: row.start,
            window: Window::ROOT,
            status: Status::Running,
            parent: NOBODY,
            ..Thread::default()
        };
        self.cores[0] = 0;
        self.tops[0] = row.slots;
        for (word, argument) in self.words.iter_mut().zip(arguments) {
            *word = *argument;
        }
    }

    pub fn answer(&self) -> Answer {
        if self.over { self.answer } else { Answer::Open { units: self.units() } }
    }

    fn units(&self) -> u32 {
        self.allowance - self.left
    }

    #[inline(always)]
    pub fn thread(&mut self, t: u8) -> &mut Thread {
        &mut self.threads[t as usize & 31]
    }

    #[inline(always)]
    fn slot(&self, base: u16, s: u8) -> u32 {
        self.words[(base as usize + s as usize) & 1023]
    }

    #[cold]
    fn fault(&mut self, number: u8, thread: u8) -> u8 {
        let offset = self.thread(thread).at;
        self.over = true;
        self.answer = Answer::Faulted { number, thread, offset };
        number
    }

    /// An entry `01 c`.
    #[inline(always)]
    pub fn step(&mut self, job: &Job, memory: &mut [u32; 992], core: u8) -> u8 {
        match self.on(core) {
            Ok(t) => self.carry(job, memory, core, t),
            Err(number) => number,
        }
    }

    /// The thread that a core runs: 19, then 14, then 15.
    #[inline(always)]
    fn on(&self, core: u8) -> Result<u8, u8> {
        if self.over {
            return Err(19);
        }
        if core >= self.count {
            return Err(14);
        }
        let t = self.cores[core as usize & 3];
        if t == IDLE {
            return Err(15);
        }
        Ok(t)
    }

    /// Thread t's next command, carried out on its core.
    #[inline(always)]
    pub fn carry(&mut self, job: &Job, memory: &mut [u32; 992], core: u8, t: u8) -> u8 {
        let thread = &mut self.threads[t as usize & 31];
        let mut at = thread.at;
        match carry_hot(job, thread, &mut at, slots(&mut self.words, thread.base), memory, &mut self.left) {
            Ok(()) => {
                thread.at = at;
                0
            }
            Err(undone) => self.carry_undone(job, core, t, undone),
        }
    }

    /// The log byte of a command that was not done as one of 01 to 07.
    #[inline(always)]
    fn carry_undone(&mut self, job: &Job, core: u8, t: u8, undone: Undone) -> u8 {
        match undone {
            Undone::Met(22) => 22,
            Undone::Met(number) => self.fault(number, t),
            Undone::Other(word) => self.carry_other(job, core, t, word),
        }
    }

    /// Commands 08 to 0E.
    pub fn carry_other(&mut self, job: &Job, core: u8, t: u8, word: Word) -> u8 {
        let op = word.op();
        let thread = *self.thread(t);
        if op == JOIN && thread.children != 0 {
            self.thread(t).status = Status::Waiting;
            self.leave(core, t);
            return 0;
        }
        let weight = WEIGHTS[op as usize & 15];
        if weight > self.left {
            return 22;
        }
        match op {
            LFORK => return self.fork(job, t, word, Placed::Called, core),
            FORK => return self.fork(job, t, word, Placed::Queued, core),
            JOIN => {
                self.left -= weight;
                let thread = self.thread(t);
                thread.at += 1;
                thread.window.rejoin();
                thread.pending = 0;
            }
            SUSPEND => {
                self.left -= weight;
                let thread = self.thread(t);
                thread.at += 1;
                thread.status = Status::Suspended;
                self.leave(core, t);
            }
            YIELD => {
                self.left -= weight;
                let thread = self.thread(t);
                thread.at += 1;
                thread.status = Status::Ready;
                self.ready.give(t);
                self.leave(core, t);
            }
            SHARE => return self.share(t, word.byte(1)),
            _ => {
                if thread.pending != 0 {
                    return self.fault(12, t);
                }
                self.left -= weight;
                self.give_back(job, core, t, thread, self.slot(thread.base, word.byte(1)));
            }
        }
        0
    }

    /// A share by thread t, whose weight fits: 9, 31.
    fn share(&mut self, t: u8, a: u8) -> u8 {
        let thread = &mut self.threads[t as usize & 31];
        if waits(thread.pending as u32, [a]) {
            return self.fault(9, t);
        }
        let s = slots(&mut self.words, thread.base)[a as usize & 15];
        if !thread.window.share(s) {
            return self.fault(31, t);
        }
        thread.at += 2;
        self.left -= WEIGHTS[SHARE as usize];
        0
    }

    /// Thread t leaves its core: to its parent where it is connected, and then it is disconnected; else the core is idle.
    fn leave(&mut self, core: u8, t: u8) {
        let thread = self.thread(t);
        let next = if thread.connected { thread.parent } else { IDLE };
        thread.connected = false;
        self.cores[core as usize & 3] = next;
        if next != IDLE {
            self.thread(next).status = Status::Running;
        }
    }

    /// A return with a value, which was read before its frame is wiped.
    #[inline]
    fn give_back(&mut self, job: &Job, core: u8, t: u8, thread: Thread, value: u32) {
        self.wipe(job.program.row(thread.routine), thread.base);
        let stacklet = (thread.base / 64) as usize & 15;
        let low = (thread.base % 64) as u8;
        self.tops[stacklet] = low;
        if low == 0 {
            self.free_stacklets.give(stacklet as u8);
        }
        *self.thread(t) = Thread { parent: NOBODY, ..Thread::default() };
        self.free_threads.give(t);
        if thread.parent == NOBODY {
            self.cores[core as usize & 3] = IDLE;
            self.over = true;
            self.answer = Answer::Finished { result: value, units: self.units() };
            return;
        }
        let parent = &mut self.threads[thread.parent as usize & 31];
        parent.children -= 1;
        self.words[(parent.base as usize + thread.result_slot as usize) & 1023] = value;
        if thread.connected {
            parent.status = Status::Running;
            self.cores[core as usize & 3] = thread.parent;
        } else {
            self.cores[core as usize & 3] = IDLE;
            if parent.status == Status::Waiting && parent.children == 0 {
                parent.status = Status::Ready;
                self.ready.give(thread.parent);
            }
        }
    }

    /// A fork by thread t, whose weight fits: 9, 11, 20, 21, and then the child.
    #[inline(always)]
    fn fork(&mut self, job: &Job, t: u8, word: Word, placed: Placed, core: u8) -> u8 {
        let (routine, d, a, w) = (word.byte(1), word.byte(2), word.byte(3), word.byte(4));
        let parent = *self.thread(t);
        let row = job.program.row(routine);
        let asked = ((1u32 << row.arguments) - 1) << (a & 31) | bit(d) | bit(w);
        if parent.pending as u32 & asked != 0 {
            return self.fault(9, t);
        }
        let Some(window) = parent.window.part(self.slot(parent.base, w)) else {
            return self.fault(11, t);
        };
        if self.free_threads.is_empty() {
            return 20;
        }
        let Some(base) = self.place(job.program.row(parent.routine), row, parent.base, placed) else {
            return 21;
        };
        self.frame(row, base, parent.base + a as u16);
        self.left -= WEIGHTS[word.op() as usize & 15];
        let child = self.free_threads.take();
        let status = match placed {
            Placed::Queued => Status::Ready,
            _ => Status::Running,
        };
        *self.thread(child) = Thread {
            at: row.start,
            base,
            pending: 0,
            window,
            status,
            connected: placed == Placed::Called,
            routine,
            parent: t,
            result_slot: d,
            children: 0,
        };
        let thread = self.thread(t);
        thread.at += 5;
        thread.window.cut_off(&window);
        thread.pending |= bit(d) as u16;
        thread.children += 1;
        match placed {
            Placed::Called => {
                thread.status = Status::Lent;
                self.cores[core as usize & 3] = child;
            }
            Placed::Queued => self.ready.give(child),
            Placed::Stolen(c) => self.cores[c as usize & 3] = child,
        }
        0
    }

    /// Where a child's frame goes: above its parent's, or on a free stacklet.
    #[inline]
    fn place(&mut self, parent: Row, child: Row, base: u16, placed: Placed) -> Option<u16> {
        let stacklet = (base / 64) as usize & 15;
        let top = self.tops[stacklet];
        if placed == Placed::Called && (base % 64) as u8 + parent.slots == top && top + child.slots <= 64 {
            self.tops[stacklet] = top + child.slots;
            return Some(stacklet as u16 * 64 + top as u16);
        }
        if self.free_stacklets.is_empty() {
            return None;
        }
        let free = self.free_stacklets.take();
        self.tops[free as usize & 15] = child.slots;
        Some(free as u16 * 64)
    }

    /// A new frame: the arguments in its first slots, the other slots zero.
    #[inline]
    fn frame(&mut self, row: Row, base: u16, from: u16) {
        for i in 0..row.slots as u16 {
            let value = if i < row.arguments as u16 { self.words[(from + i) as usize & 1023] } else { 0 };
            self.words[(base + i) as usize & 1023] = value;
        }
    }

    /// A frame's words are cleared. The loop goes over sixteen words whatever the frame's size, so that it has no branch.
    #[inline]
    fn wipe(&mut self, row: Row, base: u16) {
        for (i, word) in slots(&mut self.words, base).iter_mut().enumerate() {
            if i < row.slots as usize {
                *word = 0;
            }
        }
    }

    /// An entry `02 c`.
    pub fn take(&mut self, core: u8) -> u8 {
        if self.over {
            return 19;
        }
        if core >= self.count {
            return 14;
        }
        if self.cores[core as usize & 3] != IDLE {
            return 15;
        }
        if self.ready.is_empty() {
            return 16;
        }
        let t = self.ready.take();
        self.thread(t).status = Status::Running;
        self.cores[core as usize & 3] = t;
        0
    }

    /// Whether thread t is a seed's owner: lent, its next command an 08 or 09.
    #[inline]
    pub fn has_seed(&self, job: &Job, t: u8) -> bool {
        let thread = self.threads[t as usize & 31];
        thread.status == Status::Lent && matches!(job.program.word(thread.at).op(), LFORK | FORK)
    }

    /// An entry `03 c t`.
    pub fn steal(&mut self, job: &Job, core: u8, t: u8) -> u8 {
        if self.over {
            return 19;
        }
        if core >= self.count {
            return 14;
        }
        if self.cores[core as usize & 3] != IDLE {
            return 15;
        }
        if t > 31 || !self.has_seed(job, t) {
            return 18;
        }
        let word = job.program.word(self.thread(t).at);
        if WEIGHTS[word.op() as usize & 15] > self.left {
            return 22;
        }
        self.fork(job, t, word, Placed::Stolen(core), core)
    }

    /// An entry `04 t`.
    pub fn enable(&mut self, t: u8) -> u8 {
        if self.over {
            return 19;
        }
        if t > 31 || self.thread(t).status != Status::Suspended {
            return 17;
        }
        self.thread(t).status = Status::Ready;
        self.ready.give(t);
        0
    }

    /// What a run tells of it.
    pub fn ran(&self) -> Ran {
        Ran { answer: self.answer(), counts: self.counts(), statuses: self.statuses(), words: self.stacklets() }
    }

    /// The records in each state; those that are free, mostly the most, apart.
    fn counts(&self) -> [usize; 6] {
        let mut counts = [0; 6];
        let mut free = 0;
        for thread in &self.threads {
            match thread.status {
                Status::Free => free += 1,
                status => counts[status as usize] += 1,
            }
        }
        counts[0] = free;
        counts
    }

    /// The words of the stacklets.
    fn stacklets(&self) -> [u32; 1024] {
        *self.words.first_chunk().expect("there are 1,024")
    }

    /// The state of each record.
    fn statuses(&self) -> [u8; 32] {
        let mut all = [0; 32];
        for (number, thread) in all.iter_mut().zip(&self.threads) {
            *number = thread.status as u8;
        }
        all
    }
}

/// The sixteen words from a frame's first.
#[inline(always)]
fn slots(words: &mut [u32; WORDS], base: u16) -> &mut [u32; 16] {
    let base = base as usize & 1023;
    words[base..].first_chunk_mut().expect("there is room for sixteen")
}

/// Why a command was not done as one of 01 to 07.
enum Undone {
    /// 22, or a fault's number
    Met(u8),
    /// it is none of them
    Other(Word),
}

/// A command's weight, where it passes 22 and 9.
#[inline(always)]
fn pass<const N: usize>(thread: &Thread, left: u32, weight: u32, asked: [u8; N]) -> Result<u32, Undone> {
    if left < weight {
        return Err(Undone::Met(22));
    }
    if waits(thread.pending as u32, asked) {
        return Err(Undone::Met(9));
    }
    Ok(weight)
}

/// The word that a load reads: a parameter, or one that the window lets be loaded; else 10.
#[inline(always)]
fn loaded(job: &Job, thread: &Thread, memory: &[u32; 992], address: u32) -> Result<u32, Undone> {
    match job.parameters.get(address as usize) {
        Some(parameter) => Ok(*parameter),
        None if thread.window.may_load(address) => Ok(memory[address as usize - 32]),
        None => Err(Undone::Met(10)),
    }
}

/// The word that a store writes, or 10.
#[inline(always)]
fn stored<'a>(thread: &Thread, memory: &'a mut [u32; 992], address: u32) -> Result<&'a mut u32, Undone> {
    if !thread.window.may_store(address) {
        return Err(Undone::Met(10));
    }
    Ok(&mut memory[address as usize - 32])
}

/// A thread's next command, which is at `next`, if it is one of 01 to 07: 22, then 9, then 10. Of the thread it changes that position alone.
#[inline(always)]
fn carry_hot(
    job: &Job,
    thread: &Thread,
    next: &mut u16,
    slots: &mut [u32; 16],
    memory: &mut [u32; 992],
    left: &mut u32,
) -> Result<(), Undone> {
    let word = job.program.word(*next);
    let (a, b, c) = (word.byte(1), word.byte(2), word.byte(3));
    let at = |s: u8| s as usize & 15;
    let weight;
    (weight, *next) = match word.op() {
        SET => {
            let weight = pass(thread, *left, 1, [a])?;
            slots[at(a)] = word.half(2) as u32;
            (weight, *next + 4)
        }
        ADD => {
            let weight = pass(thread, *left, 1, [a, b, c])?;
            slots[at(a)] = slots[at(b)].wrapping_add(slots[at(c)]);
            (weight, *next + 4)
        }
        SUBTRACT => {
            let weight = pass(thread, *left, 1, [a, b, c])?;
            slots[at(a)] = slots[at(b)].wrapping_sub(slots[at(c)]);
            (weight, *next + 4)
        }
        LOAD => {
            let weight = pass(thread, *left, 2, [a, b])?;
            slots[at(a)] = loaded(job, thread, memory, slots[at(b)])?;
            (weight, *next + 3)
        }
        STORE => {
            let weight = pass(thread, *left, 2, [a, b])?;
            *stored(thread, memory, slots[at(a)])? = slots[at(b)];
            (weight, *next + 3)
        }
        IF_ZERO => (pass(thread, *left, 1, [a])?, if slots[at(a)] == 0 { word.half(2) } else { *next + 4 }),
        GO => (pass(thread, *left, 1, [])?, word.half(1)),
        _ => return Err(Undone::Other(word)),
    };
    *left -= weight;
    Ok(())
}

impl Machine {
    /// Entries `01 c`, so many of them or up to the first that is not accepted: how many were accepted, and the other one's log byte or 0.
    /// Between commands 01 to 07 the thread's position and the units stay in locals.
    pub fn steps(&mut self, job: &Job, memory: &mut [u32; 992], core: u8, most: usize) -> (usize, u8) {
        let mut more = most;
        while more > 0 {
            let t = match self.on(core) {
                Ok(t) => t,
                Err(number) => return (most - more, number),
            };
            let thread = &self.threads[t as usize & 31];
            let (mut at, mut left) = (thread.at, self.left);
            let slots = slots(&mut self.words, thread.base);
            let met = loop {
                if let Err(undone) = carry_hot(job, thread, &mut at, slots, memory, &mut left) {
                    break Some(undone);
                }
                more -= 1;
                if more == 0 {
                    break None;
                }
            };
            self.thread(t).at = at;
            self.left = left;
            if let Some(undone) = met {
                let number = self.carry_undone(job, core, t, undone);
                if number != 0 {
                    return (most - more, number);
                }
                more -= 1;
            }
        }
        (most, 0)
    }
}
