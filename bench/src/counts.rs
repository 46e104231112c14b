//! Instructions of a row's call, counted by valgrind's callgrind. Unlike times they repeat, whatever else the machine does.

use crate::rows::{Row, Side};
use std::process::Command;

/// Callgrind counts every round of a `rep` as an instruction; so the C library is told to copy and fill without them.
const NO_REP: &str = "glibc.cpu.x86_rep_movsb_threshold=1000000:glibc.cpu.x86_rep_stosb_threshold=1000000";

/// The instructions of a call by each side, divided as the row says; nothing where there is no valgrind.
pub fn counts(row: &Row) -> Option<[f64; 2]> {
    let [second, proved] = Side::BOTH.map(|side| counted(row, side));
    let each = |instructions: u64| instructions as f64 / row.count as f64;
    Some([each(second?), each(proved?)])
}

/// The instructions of one call: this program once more, under callgrind, which collects in the called function alone.
fn counted(row: &Row, side: Side) -> Option<u64> {
    let program = std::env::current_exe().expect("this program's path");
    let ended = Command::new("valgrind")
        .args(["--tool=callgrind", "--callgrind-out-file=/dev/null"])
        .arg(format!("--toggle-collect={}", row.function(side)))
        .arg(program)
        .args(["count", row.name, side.name(), "1"])
        .env("GLIBC_TUNABLES", NO_REP)
        .output()
        .ok()?;
    let said = String::from_utf8_lossy(&ended.stderr);
    let count = said.lines().find_map(|line| line.split("Collected : ").nth(1)?.trim().parse().ok());
    assert!(count > Some(0), "callgrind counted nothing in {}:\n{said}", row.function(side));
    count
}
