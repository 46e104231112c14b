//! Benchmarks of the proved crates against the second implementation, as ratios in one run, and what a run takes of the stack.
//!
//!     measure [DOCS]                     writes BENCHMARKS.md and benchmarks.svg into the folder DOCS (docs)
//!     measure count ROW SIDE CALLS       makes a row's call so often, by one side (second or proved), for callgrind
#[path = "../counts.rs"]
mod counts;
#[path = "../library.rs"]
mod library;
#[path = "../plot.rs"]
mod plot;
#[path = "../report.rs"]
mod report;
#[path = "../rows.rs"]
mod rows;
#[path = "../stack.rs"]
mod stack;

use bench::generate::Case;
use bench::workload;
use report::{Measured, Over, Report};
use rows::{Row, Side};
use std::time::Instant;

/// Nanoseconds of one call: the least mean of a batch.
struct Clock {
    batch: u32,
    least: f64,
}

impl Clock {
    fn new(call: &mut dyn FnMut()) -> Clock {
        let mut clock = Clock { batch: 1, least: f64::MAX };
        while clock.turn(call) * (clock.batch as f64) < 2e6 {
            clock.batch *= 2;
        }
        clock
    }

    fn turn(&mut self, call: &mut dyn FnMut()) -> f64 {
        let start = Instant::now();
        for _ in 0..self.batch {
            call();
        }
        let mean = start.elapsed().as_nanos() as f64 / self.batch as f64;
        self.least = self.least.min(mean);
        mean
    }
}

/// The least times of several calls, batch by batch in turn, so that all meet the same machine.
fn times<const N: usize>(mut calls: [&mut dyn FnMut(); N]) -> [f64; N] {
    let mut clocks: Vec<Clock> = calls.iter_mut().map(|call| Clock::new(*call)).collect();
    for _ in 0..40 {
        for (clock, call) in clocks.iter_mut().zip(calls.iter_mut()) {
            clock.turn(*call);
        }
    }
    std::array::from_fn(|i| clocks[i].least)
}

fn timed(row: &Row) -> [f64; 2] {
    let (mut a, mut b) = (row.written(), row.written());
    let times = times([&mut *row.call(Side::Second, &mut a), &mut *row.call(Side::Proved, &mut b)]);
    assert!(a == b, "both write the same: {}", row.name);
    times.map(|time| time / row.count as f64)
}

fn measured(row: Row) -> Measured {
    let (times, counts) = (timed(&row), counts::counts(&row));
    Measured { what: row.what, each: row.each, times, counts, aim: row.aim }
}

/// A job by the built-in scheduler on one core over the serial run.
fn over_serial(what: String, case: Case) -> Over {
    let (commands, forks) = workload::commands(&case);
    let serial = rows::serial("serial", &what, case.clone());
    let scheduled = rows::scheduled("scheduled", &what, case);
    let (mut a, mut b, mut c, mut d) = (serial.written(), serial.written(), scheduled.written(), scheduled.written());
    let [peer_serial, peer_scheduled, ours_serial, ours_scheduled] = times([
        &mut *serial.call(Side::Second, &mut a),
        &mut *scheduled.call(Side::Second, &mut c),
        &mut *serial.call(Side::Proved, &mut b),
        &mut *scheduled.call(Side::Proved, &mut d),
    ]);
    assert!(a == b && c == d, "both write the same: {what}");
    Over { what, commands, forks, peer_serial, peer_scheduled, serial: ours_serial, scheduled: ours_scheduled }
}

fn jobs_over_serial() -> Vec<Over> {
    let mut jobs = vec![("Fibonacci 15".to_string(), workload::fibonacci(15))];
    for size in [8, 14, 68, 608] {
        let rounds = (16_000 / (size + 5)) as u16;
        jobs.push((format!("leaves of {size} commands"), workload::leaves(size, rounds)));
    }
    jobs.into_iter().map(|(what, case)| over_serial(what, case)).collect()
}

fn write(docs: &str) {
    let rows = rows::rows().into_iter().map(measured).collect();
    let report = Report { rows, over: jobs_over_serial(), stacks: stack::measured(), undefined: report::undefined() };
    let text = report.text();
    std::fs::write(format!("{docs}/BENCHMARKS.md"), &text).expect("BENCHMARKS.md written");
    std::fs::write(format!("{docs}/benchmarks.svg"), plot::plot(&report)).expect("benchmarks.svg written");
    print!("{text}");
}

/// A row's calls by one side and nothing else.
fn count(name: &str, side: &str, calls: &str) {
    let row = rows::rows().into_iter().find(|row| row.name == name).expect("a row's name");
    let side = Side::BOTH.into_iter().find(|one| one.name() == side).expect("second or proved");
    let mut written = row.written();
    let mut call = row.call(side, &mut written);
    for _ in 0..calls.parse::<u32>().expect("a number of calls") {
        call();
    }
}

fn main() {
    let words: Vec<String> = std::env::args().skip(1).collect();
    match words.iter().map(String::as_str).collect::<Vec<_>>()[..] {
        [] => write("docs"),
        [docs] => write(docs),
        // on a thread of its own, whose stack and heap begin at a page, whatever the environment
        ["count", row, side, calls] => std::thread::scope(|scope| {
            scope.spawn(|| count(row, side, calls));
        }),
        _ => panic!("usage: measure [DOCS] | measure count ROW SIDE CALLS"),
    }
}
