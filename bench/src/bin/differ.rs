//! Differential tests: the proved crates and the second implementation on the same inputs, byte for byte.
//!
//!     differ [CASES] [SEED]
//!
//! After each run by schedule and each run by the built-in scheduler these are compared: the answer, the number of records in each state, the
//! state of each record, all 1,024 words of the stacklets, the memory, and the log or the entries written. Besides, so that what both have wrong
//! alike is found too, a finished run of the proved crates must end as the serial run does and leave every word of the stacklets zero, and a run
//! by the built-in scheduler that is promised to finish must do so (`src/finish.rs`).
//!
//! It ends with a table of how often each number was met, and with status 1 at a difference or where a number or a promise was never met, or
//! where no child of a finished run loaded a shared word.
#[path = "../library.rs"]
mod library;

use bench::finish;
use bench::generate::{damage, damaged_image, job, large_image, schedule, Case};
use bench::peer::image::number;
use bench::peer::plain::{measured, plain};
use bench::peer::run::{entries, run, Ran};
use bench::peer::{Answer, PlainAnswer};
use bench::random::Random;

/// The numbers that runs and images meet; those between are of Intel HEX.
fn numbers() -> impl Iterator<Item = usize> {
    (1..=26).chain([31])
}

/// What was compared, and which numbers were met.
#[derive(Default)]
struct Tally {
    met: [u64; 32],
    entries: u64,
    accepted: u64,
    runs: u64,
    finished: u64,
    faulted: u64,
    open: u64,
    serial: u64,
    images: u64,
    scheduled: u64,
    /// runs of either kind whose end has all words of the stacklets zero, and those that leave some
    wiped: u64,
    kept: u64,
    /// serial runs and finished runs by schedule in which a child loaded a shared word
    serial_shared: u64,
    shared: u64,
    promised: finish::Jobs,
}

fn digits(bytes: &[u8]) -> String {
    bytes.iter().map(|byte| format!("{byte:02X}")).collect::<Vec<_>>().join(" ")
}

/// Prints a difference with all that is needed to see it again, and ends.
fn differs(what: &str, case: &Case, bytes: &[u8], peer: String, library: String) -> ! {
    println!("DIFFERENCE in {what}");
    println!("cores {} allowance {} arguments {:?}", case.cores, case.allowance, case.arguments);
    println!("image {}", digits(&case.image));
    println!("schedule (its shortest front that differs) or entries written: {}", digits(bytes));
    println!("parameters {:?}\nmemory {:?}", case.parameters, case.memory);
    println!("second implementation: {peer}\nproved crates:         {library}");
    std::process::exit(1);
}

/// What a run gives, of the stacklets' words those that are not zero.
fn said(ran: &Ran) -> String {
    let words: Vec<(usize, u32)> = ran.words.iter().copied().enumerate().filter(|(_, word)| *word != 0).collect();
    format!("{:?}, counts {:?}, statuses {:?}, stacklet words {words:?}", ran.answer, ran.counts, ran.statuses)
}

/// The first place at which two lists differ.
fn place<T: PartialEq>(one: &[T], other: &[T]) -> Option<usize> {
    one.iter().zip(other).position(|(x, y)| x != y)
}

/// The words of the stacklets at the end of a run by the proved crates.
fn check_words(tally: &mut Tally, case: &Case, bytes: &[u8], ours: &Ran) {
    let all_zero = ours.words == [0; 1024];
    if matches!(ours.answer, Answer::Finished { .. }) && !all_zero {
        differs("the stacklets of a finished run", case, bytes, "the same, and not all words zero".to_string(), said(ours));
    }
    tally.wiped += all_zero as u64;
    tally.kept += !all_zero as u64;
}

fn compare_images(tally: &mut Tally, image: &[u8]) {
    let peer = number(image);
    let ours = library::check(image);
    if peer != ours {
        println!("DIFFERENCE in an image: {peer} and {ours}\n{}", digits(image));
        std::process::exit(1);
    }
    tally.images += 1;
    tally.met[peer as usize] += 1;
}

fn compare_serial(tally: &mut Tally, case: &Case) -> PlainAnswer {
    let (mut a, mut b) = (case.memory.clone(), case.memory.clone());
    let (peer, measure) = measured(case.fed(), &mut a);
    let ours = library::serial(case.fed(), &mut b);
    if peer != ours || a != b {
        differs("a serial run", case, &[], format!("{peer:?}"), format!("{ours:?}, memory equal: {}", a == b));
    }
    tally.serial += 1;
    tally.serial_shared += (measure.shared > 0) as u64;
    if let PlainAnswer::Stopped { number, .. } = peer {
        tally.met[number as usize] += 1;
        if matches!(number, 1..=8 | 24 | 25) && a != case.memory {
            differs("memory of a refused serial run", case, &[], String::new(), String::new());
        }
    }
    peer
}

/// Whether a run differs in anything that it gives.
fn run_differs(case: &Case, schedule: &[u8], log: &[u8]) -> bool {
    let (mut a, mut b) = (case.memory.clone(), case.memory.clone());
    let (mut c, mut d) = (log.to_vec(), log.to_vec());
    let peer = run(case.fed(), &mut a, schedule, &mut c);
    peer != library::run(case.fed(), &mut b, schedule, &mut d) || a != b || c != d
}

/// The shortest front of a schedule, entry by entry, at which a run differs.
fn shortest<'a>(case: &Case, schedule: &'a [u8], log: &[u8]) -> &'a [u8] {
    let mut end = 0;
    while end < schedule.len() {
        if run_differs(case, &schedule[..end], log) {
            return &schedule[..end];
        }
        end += if schedule[end] == 3 { 3 } else { 2 };
    }
    schedule
}

fn compare_runs(tally: &mut Tally, case: &Case, schedule: &[u8], log: &[u8], serial: PlainAnswer) -> Ran {
    let (mut a, mut b) = (case.memory.clone(), case.memory.clone());
    let (mut c, mut d) = (log.to_vec(), log.to_vec());
    let peer = run(case.fed(), &mut a, schedule, &mut c);
    let ours = library::run(case.fed(), &mut b, schedule, &mut d);
    if peer != ours || a != b || c != d {
        let say = format!(
            "{}, memory equal: {}, first log byte that differs: {:?}, first stacklet word that differs: {:?}",
            said(&ours),
            a == b,
            place(&c, &d),
            place(&peer.words, &ours.words)
        );
        differs("a run", case, shortest(case, schedule, log), said(&peer), say);
    }
    tally.runs += 1;
    if let Answer::Refused(number) = ours.answer {
        tally.met[number as usize] += 1;
        if b != case.memory || d != log {
            differs("buffers of a refused run", case, schedule, String::new(), String::new());
        }
        return ours;
    }
    check_words(tally, case, schedule, &ours);
    check_end(tally, case, schedule, &ours, &b, serial);
    let count = entries(schedule).unwrap_or(0);
    tally.entries += count as u64;
    for byte in &d[..count] {
        tally.met[*byte as usize] += 1;
        tally.accepted += (*byte == 0) as u64;
    }
    ours
}

/// Demand 3, as far as a test can show it, of a run's end by the proved crates.
fn check_end(tally: &mut Tally, case: &Case, schedule: &[u8], ours: &Ran, after: &[u32], serial: PlainAnswer) {
    let holds = match ours.answer {
        Answer::Finished { result, units } => {
            tally.finished += 1;
            let mut memory = case.memory.clone();
            tally.shared += (measured(case.fed(), &mut memory).1.shared > 0) as u64;
            serial == (PlainAnswer::Finished { result, units }) && memory == after && ours.counts[0] == 32
        }
        Answer::Faulted { .. } => {
            tally.faulted += 1;
            !matches!(serial, PlainAnswer::Finished { .. })
        }
        _ => {
            tally.open += 1;
            true
        }
    };
    if !holds {
        differs("demand 3", case, schedule, format!("{serial:?}"), said(ours));
    }
}

fn compare_scheduled(tally: &mut Tally, random: &mut Random, case: &Case) {
    use bench::peer::house::house;
    let length = random.pick(&[0, 1, 2, 3, 4, 5, 10, 101, 1000, 32_767, 32_768, 32_769, 40_000]);
    let filled: Vec<u8> = (0..length).map(|i| i as u8).collect();
    let (mut a, mut b) = (case.memory.clone(), case.memory.clone());
    let (mut c, mut d) = (filled.clone(), filled.clone());
    let peer = house(case.fed(), &mut a, &mut c);
    let ours = library::scheduled(case.fed(), &mut b, &mut d);
    if peer != ours || a != b || c != d {
        let say = format!(
            "{}, bytes used {}, memory equal: {}, first byte that differs: {:?} of {length}, first stacklet word that differs: {:?}",
            said(&ours.ran),
            ours.used,
            a == b,
            place(&c, &d),
            place(&peer.ran.words, &ours.ran.words)
        );
        let also = format!("{}, bytes used {}", said(&peer.ran), peer.used);
        differs("a run by the built-in scheduler", case, &c[..peer.used], also, say);
    }
    tally.scheduled += 1;
    if let Answer::Refused(number) = ours.ran.answer {
        tally.met[number as usize] += 1;
        return;
    }
    let entries = d[..ours.used].to_vec();
    check_words(tally, case, &entries, &ours.ran);
    // "it writes the accepted or faulting entries it uses, and equals the run by them"
    let serial = plain(case.fed(), &mut case.memory.clone());
    let log = vec![0xAA; entries.len()];
    let by_entries = compare_runs(tally, case, &entries, &log, serial);
    if by_entries != ours.ran {
        differs("a run by the entries written", case, &entries, said(&by_entries), said(&ours.ran));
    }
}

fn check_promises(tally: &mut Tally, case: &Case) {
    if let Err(broken) = finish::check(&mut tally.promised, case, library::scheduled) {
        differs(broken.what, &broken.case, &broken.entries, broken.promised, broken.given);
    }
}

fn one_case(tally: &mut Tally, random: &mut Random) {
    for _ in 0..4 {
        let image = if random.one_in(12) { large_image(random) } else { damaged_image(random) };
        compare_images(tally, &image);
    }
    let mut case = job(random);
    let serial = compare_serial(tally, &case);
    for _ in 0..3 {
        let most = random.pick(&[3, 60, 400, 2000, 20_000, 20_000]);
        let length = random.below(most + 1) as usize;
        case.cores = random.range(1, 4) as u8;
        let mut bytes = schedule(random, &case, length);
        let count = entries(&bytes).expect("a schedule");
        let mut log: Vec<u8> = (0..count + random.below(5) as usize).map(|_| random.byte()).collect();
        compare_runs(tally, &case, &bytes, &log, serial);
        if random.one_in(4) {
            let mut damaged = case.clone();
            damage(random, &mut damaged, &mut bytes, &mut log);
            let serial = compare_serial(tally, &damaged);
            compare_runs(tally, &damaged, &bytes, &log, serial);
            compare_scheduled(tally, random, &damaged);
            check_promises(tally, &damaged);
        }
    }
    compare_scheduled(tally, random, &case);
    check_promises(tally, &case);
}

fn main() {
    let mut words = std::env::args().skip(1);
    let cases: u64 = words.next().map_or(20_000, |word| word.parse().expect("a count of cases"));
    let seed: u64 = words.next().map_or(1, |word| word.parse().expect("a seed"));
    let mut tally = Tally::default();
    for case in 0..cases {
        let mut random = Random::new(seed.wrapping_mul(0x1_0000_0001).wrapping_add(case << 8));
        one_case(&mut tally, &mut random);
    }
    println!("seed {seed}, {cases} cases");
    println!("images {}, serial runs {}, runs by schedule {}", tally.images, tally.serial, tally.runs);
    println!("runs by the built-in scheduler {}", tally.scheduled);
    println!("finished {}, faulted {}, open {}", tally.finished, tally.faulted, tally.open);
    println!("stacklets: runs that end with all 1,024 words zero {}, with words left {}", tally.wiped, tally.kept);
    println!("entries {}, accepted {}", tally.entries, tally.accepted);
    println!("shared words loaded by children: serial runs {}, finished runs {}", tally.serial_shared, tally.shared);
    let finish::Jobs { met, full, deep } = &tally.promised;
    println!("promised to finish on 1 to 4 cores {:?}, with as many threads in use as are let be {:?}", &met[1..], &full[1..]);
    println!("promised to finish on one core, by depth from 1 to 16 {:?}", &deep[1..]);
    let mut never = false;
    for number in numbers() {
        println!("number {number:2}: {}", tally.met[number]);
        never |= tally.met[number] == 0;
    }
    if never {
        println!("a number was never met");
        std::process::exit(1);
    }
    if tally.shared == 0 {
        println!("no child of a finished run loaded a shared word");
        std::process::exit(1);
    }
    if !tally.promised.complete() {
        println!("a promise to finish, or its bound of threads, was never met");
        std::process::exit(1);
    }
    println!("no difference");
}
