//! The benchmarks' page.

use crate::stack::Stack;
use std::fmt::Write;
use std::process::Command;

/// A row of the table: nanoseconds and instructions of the second implementation and of the proved crates.
pub struct Measured {
    pub what: String,
    pub each: &'static str,
    pub times: [f64; 2],
    pub counts: Option<[f64; 2]>,
    pub aim: f64,
}

impl Measured {
    pub fn time_ratio(&self) -> f64 {
        self.times[1] / self.times[0]
    }

    /// The ratio of the instructions, where they were counted.
    pub fn count_ratio(&self) -> Option<f64> {
        self.counts.map(|[second, proved]| proved / second)
    }
}

/// A job by the built-in scheduler and by the serial run, in nanoseconds.
pub struct Over {
    pub what: String,
    pub commands: u64,
    pub forks: u64,
    pub peer_serial: f64,
    pub peer_scheduled: f64,
    pub serial: f64,
    pub scheduled: f64,
}

pub struct Report {
    pub rows: Vec<Measured>,
    pub over: Vec<Over>,
    pub stacks: Vec<Stack>,
    pub undefined: Vec<String>,
}

/// The number that a crate's source gives a constant.
fn constant(path: &str, name: &str) -> usize {
    let text = std::fs::read_to_string(format!("{}/../crates/{path}", env!("CARGO_MANIFEST_DIR"))).expect("a crate's source");
    let value = text.split(&format!("const {name}: usize = ")).nth(1).and_then(|rest| rest.split(';').next());
    value.and_then(|value| value.parse().ok()).expect("a constant's number")
}

/// The bytes of the machine's tables and of a thread record in them.
fn sizes() -> (usize, usize) {
    (constant("tables/src/lib.rt", "SIZE"), constant("cells/src/lib.rt", "WIDE"))
}

/// What the static libraries leave to be linked: the only functions outside them that they can call.
pub fn undefined() -> Vec<String> {
    let folder = concat!(env!("CARGO_MANIFEST_DIR"), "/../target/staticlib/");
    let archives = ["libabi.a", "libabi_scheduler.a", "libabi_serial.a", "libabi_hex.a"].map(|name| format!("{folder}{name}"));
    let said = Command::new("nm").arg("-u").args(archives).output().map(|out| out.stdout).unwrap_or_default();
    let said = String::from_utf8_lossy(&said);
    let mut names: Vec<String> =
        said.lines().filter_map(|line| line.trim().strip_prefix("U ").map(str::to_string)).collect();
    names.sort();
    names.dedup();
    names
}

fn processor() -> String {
    let text = std::fs::read_to_string("/proc/cpuinfo").unwrap_or_default();
    let line = text.lines().find(|line| line.starts_with("model name"));
    line.and_then(|line| line.split(": ").nth(1)).unwrap_or("unknown processor").to_string()
}

fn number(x: f64) -> String {
    let digits = if x >= 100.0 { 0 } else if x >= 10.0 { 1 } else { 2 };
    format!("{x:.digits$}")
}

impl Report {
    pub fn text(&self) -> String {
        let mut out = String::new();
        out += HEAD;
        let _ = writeln!(out, "Processor: {}.\n", processor());
        self.rows_text(&mut out);
        out += "\n![Ratios of the table](benchmarks.svg)\n";
        self.over_text(&mut out);
        self.stack_text(&mut out);
        out
    }

    fn rows_text(&self, out: &mut String) {
        *out += "| what | for | second implementation, ns | proved crates, ns | ratio of times | aim | second implementation, instructions | proved crates, instructions | ratio of instructions |\n";
        *out += "|---|---|---|---|---|---|---|---|---|\n";
        for row in &self.rows {
            let [peer, ours] = row.times.map(number);
            let ratio = row.time_ratio();
            let _ = write!(out, "| {} | {} | {peer} | {ours} | {ratio:.2} | at most {:.1} |", row.what, row.each, row.aim);
            match (row.counts, row.count_ratio()) {
                (Some(counts), Some(ratio)) => {
                    let [peer, ours] = counts.map(number);
                    let _ = writeln!(out, " {peer} | {ours} | {ratio:.2} |");
                }
                _ => *out += " no valgrind | no valgrind | |\n",
            }
        }
    }

    fn over_text(&self, out: &mut String) {
        *out += OVER;
        *out += "| job | commands | forks | serial, ns a command (second, proved) | scheduler, ns a command (second, proved) | scheduler over serial, second | proved | aim |\n";
        *out += "|---|---|---|---|---|---|---|---|\n";
        for over in &self.over {
            let each = |time: f64| number(time / over.commands as f64);
            let _ = writeln!(
                out,
                "| {} | {} | {} | {}, {} | {}, {} | {:.2} | {:.2} | at most 3.0 |",
                over.what,
                over.commands,
                over.forks,
                each(over.peer_serial),
                each(over.serial),
                each(over.peer_scheduled),
                each(over.scheduled),
                over.peer_scheduled / over.peer_serial,
                over.scheduled / over.serial,
            );
        }
    }

    fn stack_text(&self, out: &mut String) {
        *out += STACK;
        *out += "| call | second implementation | proved crates |\n|---|---|---|\n";
        for stack in &self.stacks {
            let _ = writeln!(out, "| {} | {} | {} |", stack.what, stack.peer, stack.ours);
        }
        let (tables, thread) = sizes();
        let _ = write!(
            out,
            "\nThe machine's state is {tables} bytes of tables (32 thread records of {thread} bytes, three queues of 34, 16 stacklet tops), beside\n\
             the 4,096 bytes of the stacklets' words; the memory words, the log and the buffer are the caller's.\n\n\
             ## Nothing is allocated\n\n\
             No function of theirs takes an allocator. The static libraries that the tests and benchmarks link leave these names to the linker and no others, so\n\
             they can call nothing else (`nm -u target/staticlib/*.a`): {}.\n",
            self.undefined.iter().map(|name| format!("`{name}`")).collect::<Vec<_>>().join(", "),
        );
    }
}

const HEAD: &str = "# Benchmarks

Written by `bench/run.sh measure`, which proves and builds the static libraries (`crates/abi*`), builds `bench/` and measures both
implementations in one run, on the same machine and input, batch by batch in turn; each time is the least mean of 40 batches. The second
implementation (`bench/src/peer`) is Rust with `&mut` state, no `unsafe` and nothing allocated, and steps one core's commands in bursts.
Times are of whole calls, those of runs and of hex write with the image check, divided by the entries, commands or bytes; the aims are for
their ratio, but for hex write and read for the ratio of instructions.

Instructions are of one such call alone, counted by valgrind's callgrind in the function that is called and in all that it calls, and divided
as the times are. They repeat, whatever else the machine does. Copies and fills are counted as loops of vector instructions (`GLIBC_TUNABLES`),
for callgrind counts every round of a `rep`.

";

const OVER: &str = "
## Built-in scheduler over serial run

The same job by the built-in scheduler on one core and by the serial run, as a ratio for each implementation. The job does its forks by
lfork; the scheduler writes every entry that it uses into its buffer.

";

const STACK: &str = "
## Stack and state

Bytes of stack that a call writes at most, measured: the call is made on a thread whose stack was painted, and the paint that is left is
counted, less that of a thread that does nothing. The call's own frame in the test program is in it.

";
