//! The print program's input and output, by the second implementation.

use crate::peer::run::{entries, run, Fed};
use crate::peer::Answer;

/// Hexadecimal digits, with white space anywhere.
pub fn hex(text: &str) -> Vec<u8> {
    let digits: Vec<u8> = text.bytes().filter(|b| !b.is_ascii_whitespace()).collect();
    assert!(digits.len() % 2 == 0, "an even count of hexadecimal digits");
    digits
        .chunks(2)
        .map(|pair| u8::from_str_radix(std::str::from_utf8(pair).expect("digits"), 16).expect("hexadecimal digits"))
        .collect()
}

/// Decimal numbers, separated by commas.
pub fn numbers(text: &str) -> Vec<u32> {
    text.split(',').filter(|n| !n.is_empty() && *n != "-").map(|n| n.trim().parse().expect("a number")).collect()
}

/// What the print program reads.
struct Input<'a> {
    cores: u8,
    arguments: Vec<u32>,
    allowance: u32,
    image: &'a [u8],
    schedule: &'a [u8],
}

fn split(input: &[u8], count: usize) -> Option<(&[u8], &[u8])> {
    (input.len() >= count).then(|| input.split_at(count))
}

fn word(bytes: &[u8]) -> u32 {
    u32::from_le_bytes([bytes[0], bytes[1], bytes[2], bytes[3]])
}

/// The parts of an input; none where it ends before the schedule.
fn parse(input: &[u8]) -> Option<Input<'_>> {
    let (head, rest) = split(input, 2)?;
    let (arguments, rest) = split(rest, 4 * head[1] as usize)?;
    let (allowance, rest) = split(rest, 4)?;
    let (length, rest) = split(rest, 2)?;
    let (image, schedule) = split(rest, u16::from_le_bytes([length[0], length[1]]) as usize)?;
    Some(Input {
        cores: head[0],
        arguments: arguments.chunks(4).map(word).collect(),
        allowance: word(allowance),
        image,
        schedule,
    })
}

pub fn last_line(answer: Answer) -> String {
    match answer {
        Answer::Refused(number) => format!("refused {number}\n"),
        Answer::Finished { result, units } => format!("finished {result} {units}\n"),
        Answer::Faulted { number, thread, offset } => format!("faulted {number} {thread} {offset}\n"),
        Answer::Open { units } => format!("open {units}\n"),
    }
}

/// What the print program writes for an input.
pub fn print(input: &[u8]) -> String {
    let Some(parts) = parse(input) else {
        return last_line(Answer::Refused(25));
    };
    let fed = Fed {
        image: parts.image,
        cores: parts.cores,
        arguments: &parts.arguments,
        parameters: &[0; 32],
        allowance: parts.allowance,
    };
    let count = entries(parts.schedule).unwrap_or(0);
    let mut log = vec![0; count];
    let mut memory = [0; 992];
    let ran = run(fed, &mut memory, parts.schedule, &mut log);
    let mut out = String::new();
    if !matches!(ran.answer, Answer::Refused(_)) {
        for (i, byte) in log.iter().enumerate() {
            out += &format!("{i} {byte}\n");
        }
    }
    out + &last_line(ran.answer)
}
