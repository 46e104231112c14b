//! The print program, run on random inputs, against the second implementation's output.
//!
//!     prints PROGRAM [CASES] [SEED]       PROGRAM is crates/print/out/print
//!
//! It ends with status 1 at a difference, which it prints.
use bench::generate::{damage, job, schedule};
use bench::random::Random;
use bench::text::print;
use std::io::Write;
use std::process::{Command, Stdio};

/// An input: mostly whole, sometimes with a part that is wrong, cut off or too long.
fn input(random: &mut Random) -> Vec<u8> {
    let mut case = job(random);
    case.parameters.fill(0);
    case.memory.fill(0);
    let length = random.pick(&[0, 5, 50, 500, 20_000]);
    let mut bytes = schedule(random, &case, length);
    let image_length = case.image.len();
    if random.one_in(4) {
        damage(random, &mut case, &mut bytes, &mut Vec::new());
    }
    if random.one_in(40) {
        case.arguments.resize(255, 1);
    }
    if random.one_in(60) {
        case.image.resize(65_535, 0);
    }
    let mut input = vec![case.cores, case.arguments.len() as u8];
    for argument in &case.arguments {
        input.extend(argument.to_le_bytes());
    }
    input.extend(case.allowance.to_le_bytes());
    input.extend((case.image.len() as u16).to_le_bytes());
    input.extend(&case.image);
    if random.one_in(5) {
        // ends before the schedule, or just at its start
        let most = input.len().min(image_length + 20);
        let to = random.pick(&[0, 1, 2, 3, input.len(), input.len() - 1, random.clone().below(most as u64 + 1) as usize]);
        input.truncate(to);
        return input;
    }
    input.extend(bytes);
    input
}

fn said(program: &str, input: &[u8]) -> Vec<u8> {
    let mut child = Command::new(program).stdin(Stdio::piped()).stdout(Stdio::piped()).spawn().expect("the print program starts");
    let mut stdin = child.stdin.take().expect("standard input");
    let input = input.to_vec();
    // the program may end before it has read all of its input
    let writer = std::thread::spawn(move || {
        let _ = stdin.write_all(&input);
    });
    let out = child.wait_with_output().expect("the print program ends");
    writer.join().expect("the input is written");
    out.stdout
}

fn main() {
    let mut words = std::env::args().skip(1);
    let program = words.next().expect("the print program's path");
    let cases: u64 = words.next().map_or(3000, |word| word.parse().expect("a count of cases"));
    let seed: u64 = words.next().map_or(1, |word| word.parse().expect("a seed"));
    let mut last_words = std::collections::BTreeMap::new();
    for case in 0..cases {
        let mut random = Random::new(seed.wrapping_mul(0x1_0000_0001).wrapping_add(case << 8));
        let input = input(&mut random);
        let peer = print(&input);
        let ours = said(&program, &input);
        if peer.as_bytes() != ours {
            let digits: Vec<String> = input.iter().map(|byte| format!("{byte:02X}")).collect();
            println!("DIFFERENCE on the input {}", digits.join(" "));
            println!("second implementation:\n{peer}\nprint program:\n{}", String::from_utf8_lossy(&ours));
            std::process::exit(1);
        }
        let last = peer.lines().last().unwrap_or("");
        let word = if last.starts_with("refused") { last } else { last.split(' ').next().unwrap_or("") };
        *last_words.entry(word.to_string()).or_insert(0u64) += 1;
    }
    println!("seed {seed}, {cases} inputs of the print program, no difference");
    for (word, count) in last_words {
        println!("{word}: {count}");
    }
}
