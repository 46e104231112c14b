//! Intel HEX texts for the differential tests: good ones in every form that the reader takes, and damaged ones.

use crate::random::Random;

const LF: &[u8] = b"\n";
const CR_LF: &[u8] = b"\r\n";
const BAD_ENDS: [&[u8]; 12] = [b"", b"\r", b"\n\r", b"\r\r\n", b"\n\n", b"\r\n\r\n", b" \n", b"\n ", b"\0\n", b"\n\0", b"\x0B", b"\x1A"];

/// A line: its record's bytes, the checksum among them, and its line end.
#[derive(Clone)]
struct Line {
    record: Vec<u8>,
    end: &'static [u8],
}

/// A record with the checksum that it wants.
fn record(length: u8, address: u16, kind: u8, data: &[u8]) -> Vec<u8> {
    let [high, low] = address.to_be_bytes();
    let mut bytes = vec![length, high, low, kind];
    bytes.extend(data);
    summed(bytes)
}

fn summed(mut bytes: Vec<u8>) -> Vec<u8> {
    bytes.push(bytes.iter().fold(0u8, |sum, byte| sum.wrapping_sub(*byte)));
    bytes
}

/// How many bytes a text has: few, some hundreds, about an image's most, or about the most that addresses reach.
fn size(random: &mut Random) -> usize {
    match random.below(400) {
        0 => random.range(65_530, 65_560) as usize,
        1 => random.pick(&[65_535, 65_536, 65_536, 65_537]),
        2..=7 => random.range(4_080, 4_130) as usize,
        8..=60 => random.below(700) as usize,
        61..=110 => random.pick(&[0, 1, 15, 16, 17, 31, 32, 33]),
        _ => random.below(80) as usize,
    }
}

/// Data records from address 0 up, full ones or of any lengths, and the end record. Past FFFF the address begins again.
fn lines(random: &mut Random) -> Vec<Line> {
    let bytes: Vec<u8> = (0..size(random)).map(|_| random.byte()).collect();
    let least = random.pick(&[16, 16, 1, 10]);
    let ends = random.pick(&[[LF, LF], [CR_LF, CR_LF], [LF, CR_LF]]);
    let mut lines = Vec::new();
    let mut at = 0;
    while at < bytes.len() {
        let length = (random.range(least, 16) as usize).min(bytes.len() - at);
        let record = record(length as u8, at as u16, 0, &bytes[at..at + length]);
        lines.push(Line { record, end: random.pick(&ends) });
        at += length;
    }
    lines.push(Line { record: record(0, 0, 1, &[]), end: random.pick(&ends) });
    lines
}

/// Another record in a line's place. Its checksum is right, but for one kind.
fn damage_record(random: &mut Random, old: &[u8]) -> Vec<u8> {
    if old.len() < 5 {
        return old.to_vec();
    }
    let (length, kind) = (old[0], old[3]);
    let address = u16::from_be_bytes([old[1], old[2]]);
    let data = &old[4..old.len() - 1];
    let any: Vec<u8> = (0..random.pick(&[0, 1, 2, 15, 16, 17, 17, 18, 32, 255])).map(|_| random.byte()).collect();
    match random.below(10) {
        0 | 1 => {
            let by = random.pick(&[1, 16, 0x100, 0x8000, random.clone().byte() as u16]);
            record(length, if random.one_in(2) { address.wrapping_add(by) } else { address.wrapping_sub(by) }, kind, data)
        }
        2 => record(length, address, random.pick(&[0, 1, 2, 3, 4, 5, 6, 0x10, 0x80, 0xFF]), data),
        3 => record(random.pick(&[0, 1, 16, 17, 255, length.wrapping_add(1), length.wrapping_sub(1)]), address, kind, data),
        4 => record(any.len() as u8, address, kind, &any),
        5 => record(any.len() as u8, random.pick(&[0, address]), 1, &any),
        6 => record(0, random.pick(&[0, 0, 1, 0x100, address]), random.pick(&[0, 1, 1]), &[]),
        7 => {
            // a byte of it fewer or more, which the length does not tell
            let mut bytes = old[..old.len() - 1].to_vec();
            bytes.resize(random.pick(&[bytes.len() - 1, bytes.len() + 1]), 0x5A);
            summed(bytes)
        }
        _ => {
            let mut bytes = old.to_vec();
            let at = random.below(bytes.len() as u64) as usize;
            bytes[at] ^= 1 << random.below(8);
            bytes
        }
    }
}

/// All addresses of data moved by as much.
fn move_all(random: &mut Random, lines: &mut [Line]) {
    let by = random.pick(&[1, 16, 0xFFF0]);
    for line in lines.iter_mut().filter(|line| line.record.len() > 5) {
        let old = &line.record;
        let address = u16::from_be_bytes([old[1], old[2]]).wrapping_add(by);
        line.record = record(old[0], address, old[3], &old[4..old.len() - 1]);
    }
}

/// Lines changed, twice, gone, in another order or cut off, and records after the end.
fn damage_lines(random: &mut Random, lines: &mut Vec<Line>) {
    if lines.is_empty() {
        return;
    }
    let at = random.below(lines.len() as u64) as usize;
    let other = random.below(lines.len() as u64) as usize;
    match random.below(16) {
        0 => lines.insert(at, lines[at].clone()),
        1 => lines.swap(at, other),
        2 => {
            lines.remove(at);
        }
        3 => {
            lines.pop();
        }
        4 => lines.push(lines[other].clone()),
        5..=7 => {
            // a checksum alone
            let line = &mut lines[at].record;
            let last = line.len() - 1;
            line[last] = line[last].wrapping_add(random.range(1, 255) as u8);
        }
        8 => move_all(random, lines),
        9 => lines[at].end = random.pick(&BAD_ENDS),
        10 => {
            let last = lines.len() - 1;
            lines[last].record = damage_record(random, &lines[last].record.clone());
        }
        _ => lines[at].record = damage_record(random, &lines[at].record.clone()),
    }
}

/// A character that stands beside the digits or is none at all.
fn odd(random: &mut Random) -> u8 {
    match random.below(3) {
        0 => random.byte(),
        1 => random.pick(b"/:@G`g;?!.xX-+ \t\r\n\0\x7F\x80\xB0\xC1\xE1\xFF"),
        _ => random.pick(b"0123456789ABCDEFabcdef"),
    }
}

/// Characters changed, gone or too many.
fn damage_characters(random: &mut Random, text: &mut Vec<u8>) {
    let at = random.below(text.len() as u64 + 1) as usize;
    // a place near an end, where most of the line ends and fields are
    let at = if random.one_in(4) { at.max(text.len().saturating_sub(random.below(14) as usize)) } else { at };
    let within = at < text.len();
    match random.below(8) {
        0..=2 if within => text[at] = odd(random),
        3 if within => {
            text.remove(at);
        }
        4 if within => text[at] ^= 0x20,
        5 if within => text[at] = text[at].wrapping_add(random.pick(&[1, 255, 16, 240, 128])),
        6 if random.one_in(4) => text.truncate(at),
        _ => text.insert(at, odd(random)),
    }
}

/// The lines' characters, with capitals, small letters or both.
fn written(random: &mut Random, lines: &[Line]) -> Vec<u8> {
    // one letter in so many is small; 0: none is
    let small = random.pick(&[0, 0, 1, 2]);
    let mut text = Vec::new();
    for line in lines {
        let digits: String = line.record.iter().map(|byte| format!("{byte:02X}")).collect();
        text.push(b':');
        for digit in digits.bytes() {
            text.push(if small != 0 && random.one_in(small) { digit.to_ascii_lowercase() } else { digit });
        }
        text.extend(line.end);
    }
    text
}

/// A text that is read, or one with one thing wrong or several.
pub fn text(random: &mut Random) -> Vec<u8> {
    let mut lines = lines(random);
    if random.one_in(4) {
        if let Some(last) = lines.last_mut() {
            last.end = b"";
        }
    }
    for _ in 0..random.pick(&[0, 0, 0, 1, 1, 2, 4]) {
        damage_lines(random, &mut lines);
    }
    let mut text = written(random, &lines);
    for _ in 0..random.pick(&[0, 0, 0, 0, 0, 0, 1, 1, 2, 4]) {
        damage_characters(random, &mut text);
    }
    text
}
