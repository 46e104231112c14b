//! Small changes of the definitions, tried on their worked rows alone: which do the rows let pass?
//!
//!     mutants ROOT [WITNESS..]       ROOT is the repository; WITNESS: rules, scheduler, serial, image, print, hex
//!
//! A change that passes is a place to look and no verdict: it may change nothing that a run can show, or break another promise. `rt all check` comes
//! first, since the crates below count as proved as far as they are.
use bench::mutation::{changes, Change};
use bench::witness::{renamed, Witness, WITNESSES};
use std::fs;
use std::path::{Path, PathBuf};
use std::process::Command;
use std::sync::Mutex;
use std::thread;

/// How many are tried at a time.
const JOBS: usize = 2;

/// How a change fared.
#[derive(Default)]
struct Tally {
    refused: usize,
    passed: Vec<String>,
    /// what is no definition any more
    broken: usize,
}

/// Whether a witness is proved; or not, and whether since a definition of its own does not stand.
fn is_proved(room: &Path) -> Result<(), bool> {
    let said = Command::new("timeout").args(["120", "rt", "check"]).current_dir(room.join("crates/witness")).output().expect("rt check");
    if said.status.success() {
        return Ok(());
    }
    let text = String::from_utf8_lossy(&said.stdout) + String::from_utf8_lossy(&said.stderr);
    Err(text.lines().any(|line| line.contains("./specs/") && line.contains("error")))
}

fn try_change(room: &Path, module: &str, text: &str, change: &Change, tally: &Mutex<Tally>) {
    let file = room.join(format!("crates/witness/specs/{module}.antt"));
    fs::write(&file, change.applied(text)).expect("a changed module");
    let proved = is_proved(room);
    fs::write(&file, text).expect("a module");
    let mut tally = tally.lock().expect("a tally");
    match proved {
        Err(false) => tally.refused += 1,
        Err(true) => tally.broken += 1,
        Ok(()) => {
            let line = text.lines().nth(change.line).unwrap_or("").trim();
            tally.passed.push(format!("{module}:{}  {} -> {}  in  {line}", change.line + 1, change.old(text).trim(), change.new.trim()));
        }
    }
}

fn try_all(witness: &Witness, root: &Path) -> Tally {
    let rooms: Vec<PathBuf> = (0..JOBS).map(|job| root.join(format!("target/mutants/{}.{job}", witness.name))).collect();
    for room in &rooms {
        witness.write(root, room).expect("a witness");
        assert!(is_proved(room).is_ok(), "{} is not proved as it is: run rt all check first", witness.name);
    }
    let mut all = Vec::new();
    for (name, modules) in witness.definitions {
        for module in *modules {
            let module = renamed(name, module);
            let text = fs::read_to_string(rooms[0].join(format!("crates/witness/specs/{module}.antt"))).expect("a module");
            for change in changes(&text) {
                all.push((module.clone(), text.clone(), change));
            }
        }
    }
    let tally = Mutex::new(Tally::default());
    thread::scope(|scope| {
        for (job, room) in rooms.iter().enumerate() {
            let (all, tally) = (&all, &tally);
            scope.spawn(move || {
                for (module, text, change) in all.iter().skip(job).step_by(JOBS) {
                    try_change(room, module, text, change, tally);
                }
            });
        }
    });
    tally.into_inner().expect("a tally")
}

fn main() {
    let mut arguments = std::env::args().skip(1);
    let root = PathBuf::from(arguments.next().expect("the repository")).canonicalize().expect("the repository");
    let names: Vec<String> = arguments.collect();
    for witness in WITNESSES.iter().filter(|witness| names.is_empty() || names.iter().any(|name| name == witness.name)) {
        let tally = try_all(witness, &root);
        for line in &tally.passed {
            println!("{line}");
        }
        let (passed, tried) = (tally.passed.len(), tally.refused + tally.passed.len() + tally.broken);
        println!("{}: {tried} small changes, {} refused, {passed} let pass, {} no definitions any more", witness.name, tally.refused, tally.broken);
    }
}
