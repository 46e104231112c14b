//! The rows of the benchmarks: each is a call that both implementations make, which is timed and whose instructions are counted.

use crate::library::{self, Outputs};
use bench::generate::Case;
use bench::peer;
use bench::peer::command::{ADD, GO, JOIN, LFORK};
use bench::peer::house::Housed;
use bench::peer::run::{Fed, Ran};
use bench::peer::PlainAnswer;
use bench::workload;
use std::hint::black_box;

/// Aims: the most that the proved crates' time may be, over the second implementation's.
const HOT: f64 = 1.1;
const TASKS: f64 = 1.4;
const PLAIN: f64 = 1.0;

#[derive(Clone, Copy)]
pub enum Side {
    Second,
    Proved,
}

impl Side {
    pub const BOTH: [Side; 2] = [Side::Second, Side::Proved];

    pub fn name(self) -> &'static str {
        match self {
            Side::Second => "second",
            Side::Proved => "proved",
        }
    }
}

/// What a row calls: a run by schedule, the built-in scheduler, the serial run, the image check, or Intel HEX written or read.
#[derive(Clone, Copy)]
pub enum Call {
    Run,
    Scheduled,
    Serial,
    Check,
    HexWrite,
    HexRead,
}

/// Intel HEX written or read: the input, the output's buffer, and the count or the number.
type HexCall = fn(&[u8], &mut [u8]) -> Result<usize, u8>;

pub struct Row {
    /// its name on the command line
    pub name: &'static str,
    pub what: String,
    pub call: Call,
    pub case: Case,
    /// the schedule, or the text that is read
    pub schedule: Vec<u8>,
    /// what its figures are told for, and how many of these a call has
    pub each: &'static str,
    pub count: usize,
    pub aim: f64,
}

/// What a side's calls write: the memory words, and the log, the scheduler's buffer, the text or its bytes.
#[derive(PartialEq)]
pub struct Written {
    memory: Vec<u32>,
    bytes: Vec<u8>,
}

impl Row {
    /// The function whose instructions are counted, with those of all that it calls.
    pub fn function(&self, side: Side) -> String {
        let call = match self.call {
            Call::Run => "run",
            Call::Scheduled => "scheduled",
            Call::Serial => "serial",
            Call::Check => "check",
            Call::HexWrite => "hex_write",
            Call::HexRead => "hex_read",
        };
        match side {
            Side::Second => format!("second_{call}"),
            Side::Proved => format!("hofnulda_{call}"),
        }
    }

    pub fn written(&self) -> Written {
        Written { memory: self.case.memory.clone(), bytes: vec![0; 32_768] }
    }

    /// The row's call by one side. What a run gives is left where it is written, so that the call alone is timed.
    pub fn call<'a>(&'a self, side: Side, written: &'a mut Written) -> Box<dyn FnMut() + 'a> {
        let case = &self.case;
        match (self.call, side) {
            (Call::Run | Call::Scheduled, Side::Second) => self.second_run_call(written),
            (Call::Run | Call::Scheduled, Side::Proved) => self.proved_run_call(written),
            (Call::Serial, Side::Second) => Box::new(move || {
                black_box(second_serial(black_box(case.fed()), &mut written.memory));
            }),
            (Call::Serial, Side::Proved) => Box::new(move || {
                black_box(library::serial(black_box(case.fed()), &mut written.memory));
            }),
            (Call::Check, Side::Second) => Box::new(move || {
                black_box(second_check(black_box(&case.image)));
            }),
            (Call::Check, Side::Proved) => Box::new(move || {
                black_box(library::check(black_box(&case.image)));
            }),
            (Call::HexWrite | Call::HexRead, _) => {
                let (call, input) = self.hex_call(side);
                Box::new(move || {
                    let _ = black_box(call(black_box(input), &mut written.bytes));
                })
            }
        }
    }

    fn second_run_call<'a>(&'a self, written: &'a mut Written) -> Box<dyn FnMut() + 'a> {
        let (case, schedule) = (&self.case, &self.schedule[..]);
        let Written { memory, bytes } = written;
        if matches!(self.call, Call::Run) {
            return Box::new(move || {
                black_box(&second_run(black_box(case.fed()), memory, schedule, bytes));
            });
        }
        Box::new(move || {
            black_box(&second_scheduled(black_box(case.fed()), memory, bytes));
        })
    }

    fn proved_run_call<'a>(&'a self, written: &'a mut Written) -> Box<dyn FnMut() + 'a> {
        let (case, schedule) = (&self.case, &self.schedule[..]);
        let Written { memory, bytes } = written;
        let mut outputs = Outputs::unwritten();
        if matches!(self.call, Call::Run) {
            return Box::new(move || {
                library::run_to(black_box(case.fed()), memory, schedule, bytes, &mut outputs);
                black_box(&outputs);
            });
        }
        Box::new(move || {
            black_box(library::scheduled_to(black_box(case.fed()), memory, bytes, &mut outputs));
            black_box(&outputs);
        })
    }

    /// Intel HEX by one side, and its input.
    fn hex_call(&self, side: Side) -> (HexCall, &[u8]) {
        match (self.call, side) {
            (Call::HexRead, Side::Second) => (second_hex_read, &self.schedule),
            (Call::HexRead, Side::Proved) => (library::hex_read, &self.schedule),
            (_, Side::Second) => (second_hex_write, &self.case.image),
            (_, Side::Proved) => (library::hex_write, &self.case.image),
        }
    }
}

// The second implementation's calls, under names that callgrind can be told.

#[no_mangle]
#[inline(never)]
fn second_run(fed: Fed, memory: &mut [u32], schedule: &[u8], log: &mut [u8]) -> Ran {
    peer::run::run(fed, memory, schedule, log)
}

#[no_mangle]
#[inline(never)]
fn second_scheduled(fed: Fed, memory: &mut [u32], buffer: &mut [u8]) -> Housed {
    peer::house::house(fed, memory, buffer)
}

#[no_mangle]
#[inline(never)]
fn second_serial(fed: Fed, memory: &mut [u32]) -> PlainAnswer {
    peer::plain::plain(fed, memory)
}

#[no_mangle]
#[inline(never)]
fn second_check(image: &[u8]) -> u8 {
    peer::image::number(image)
}

#[no_mangle]
#[inline(never)]
fn second_hex_write(image: &[u8], text: &mut [u8]) -> Result<usize, u8> {
    peer::hex::write(image, text)
}

#[no_mangle]
#[inline(never)]
fn second_hex_read(text: &[u8], bytes: &mut [u8]) -> Result<usize, u8> {
    peer::hex::read(text, bytes)
}

fn entries(schedule: &[u8]) -> usize {
    peer::run::entries(schedule).expect("a schedule")
}

/// A run by schedule, told for an entry.
fn run(name: &'static str, what: &str, case: Case, schedule: Vec<u8>, aim: f64) -> Row {
    let count = entries(&schedule);
    Row { name, what: what.to_string(), call: Call::Run, case, schedule, each: "an entry", count, aim }
}

/// The built-in scheduler, told for an entry that it writes.
pub fn scheduled(name: &'static str, what: &str, case: Case) -> Row {
    let count = entries(&workload::scheduled(&case));
    Row { name, what: what.to_string(), call: Call::Scheduled, case, schedule: vec![], each: "an entry", count, aim: TASKS }
}

pub fn serial(name: &'static str, what: &str, case: Case) -> Row {
    let count = workload::commands(&case).0 as usize;
    Row { name, what: what.to_string(), call: Call::Serial, case, schedule: vec![], each: "a command", count, aim: PLAIN }
}

fn check(name: &'static str, what: &str, image: Vec<u8>, each: &'static str, count: usize) -> Row {
    let case = Case { image, ..workload::hot() };
    Row { name, what: what.to_string(), call: Call::Check, case, schedule: vec![], each, count, aim: PLAIN }
}

/// Intel HEX of an image, told for a byte of it.
fn hex(name: &'static str, what: &str, call: Call) -> Row {
    let case = Case { image: workload::mixed(), ..workload::hot() };
    let (schedule, count) = (peer::hex::text_of(&case.image), case.image.len());
    Row { name, what: what.to_string(), call, case, schedule, each: "a byte", count, aim: PLAIN }
}

/// A run by an empty schedule.
fn start_up(name: &'static str, what: &str, image: Vec<u8>) -> Row {
    let case = Case { image, ..workload::hot() };
    Row { name, what: what.to_string(), call: Call::Run, case, schedule: vec![], each: "a run", count: 1, aim: PLAIN }
}

/// Runs by schedule and by the built-in scheduler.
fn runs() -> Vec<Row> {
    let steps = workload::steps();
    let (four, in_turn) = workload::hot_on_four();
    let (thieves, stolen) = workload::steals();
    let (yielding, taken) = workload::yields();
    let (scrubbing, scrubbed) = workload::scrubs();
    let one_in = |schedule: &[u8], byte: u8| entries(schedule) as f64 / workload::entries_of(schedule, byte) as f64;
    let steals = format!("four cores, one steal in {:.1} entries", one_in(&stolen, 3));
    let scrubs = format!("shared table, four cores, one steal in {:.0} entries", one_in(&scrubbed, 3));
    let takes = format!("two cores, 09 and yield, one take in {:.1} entries", one_in(&taken, 2));
    vec![
        run("hot", "hot steps, one core", workload::hot(), steps.clone(), HOT),
        run("hot-four", "hot steps, four cores in turn", four, in_turn, HOT),
        run("calls", "lfork, return, join, go to", workload::calls(), steps, TASKS),
        run("steals", &steals, thieves.clone(), stolen, TASKS),
        run("yields", &takes, yielding.clone(), taken, TASKS),
        run("shared-table", &scrubs, scrubbing, scrubbed, TASKS),
        scheduled("scheduled-steals", "built-in scheduler, four cores with steals", thieves),
        scheduled("scheduled-yields", "built-in scheduler, two cores with 09 and yield", yielding),
    ]
}

pub fn rows() -> Vec<Row> {
    let mut rows = runs();
    rows.extend([
        serial("serial-loop", "serial run, loop", workload::counted(2000)),
        serial("serial-fibonacci", "serial run, Fibonacci 15", workload::fibonacci(15)),
        serial("serial-table", "serial run, shared table", workload::scrubs().0),
        check("check-02", "image of 4,096 bytes, 02", workload::large(ADD), "a byte", 4096),
        check("check-08", "image of 4,096 bytes, 08", workload::large(LFORK), "a byte", 4096),
        check("check-07", "image of 4,096 bytes, 07", workload::large(GO), "a byte", 4096),
        check("check-0A", "image of 4,096 bytes, 0A", workload::large(JOIN), "a byte", 4096),
        check("check-smallest", "smallest image", workload::smallest(), "an image", 1),
        start_up("start-smallest", "start-up, smallest image, no entry", workload::smallest()),
        start_up("start-large", "start-up, image of 4,096 bytes", workload::large(ADD)),
        hex("hex-write", "hex write of a 4,096-byte image", Call::HexWrite),
        hex("hex-read", "hex read of a 4,096-byte image", Call::HexRead),
    ]);
    rows
}
