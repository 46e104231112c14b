//! Images as Intel HEX: the writer, and the reader with its numbers 27, 28 and 29. Full records, of which an image mostly consists, are
//! worked on with whole arrays, so that the compiler has vectors to use; the few others digit by digit.

use super::image::{number, MOST};

/// Data bytes of a full record, and its characters without the line end.
const FULL: usize = 16;
const LINE: usize = 11 + 2 * FULL;
const END: &[u8; 12] = b":00000001FF\n";

/// The two digits of each byte.
const DIGITS: [[u8; 2]; 256] = {
    let digits = b"0123456789ABCDEF";
    let mut table = [[0; 2]; 256];
    let mut byte = 0;
    while byte < 256 {
        table[byte] = [digits[byte / 16], digits[byte % 16]];
        byte += 1;
    }
    table
};

/// The value of each character as a digit; 255 where it is none.
const VALUES: [u8; 256] = {
    let mut table = [255; 256];
    let mut value = 0;
    while value < 16 {
        let character = DIGITS[value][1];
        table[character as usize] = value as u8;
        table[character.to_ascii_lowercase() as usize] = value as u8;
        value += 1;
    }
    table
};

fn sum(bytes: &[u8]) -> u8 {
    bytes.iter().fold(0, |sum, byte| sum.wrapping_add(*byte))
}

/// The characters that so many bytes take.
fn characters(count: usize) -> usize {
    let rest = count % FULL;
    (LINE + 1) * (count / FULL) + if rest == 0 { 0 } else { 12 + 2 * rest } + END.len()
}

/// The digits of a full record's data, two at once, and its bytes added up. This and `joined` are kept functions of their own: the compiler
/// makes vectors of their loops when nothing else is near.
#[inline(never)]
fn spread(data: &[u8; FULL], digits: &mut [u8; 2 * FULL]) -> u8 {
    for (pair, byte) in digits.as_chunks_mut().0.iter_mut().zip(data) {
        let byte = *byte as u16;
        let values = (byte >> 4 | byte << 8) & 0x0F0F;
        let letters = (values + 0x0606) >> 4 & 0x0101;
        *pair = (values + 0x3030 + 7 * letters).to_le_bytes();
    }
    sum(data)
}

#[inline(always)]
fn write_full(address: u16, data: &[u8; FULL], line: &mut [u8; LINE + 1]) {
    let [high, low] = address.to_be_bytes();
    line[..3].copy_from_slice(b":10");
    line[3..5].copy_from_slice(&DIGITS[high as usize]);
    line[5..7].copy_from_slice(&DIGITS[low as usize]);
    line[7..9].copy_from_slice(b"00");
    let data = line[9..].first_chunk_mut().map_or(0, |digits| spread(data, digits));
    let check = data.wrapping_add(FULL as u8).wrapping_add(high).wrapping_add(low).wrapping_neg();
    line[41..43].copy_from_slice(&DIGITS[check as usize]);
    line[43] = b'\n';
}

/// A record of less than 16 bytes.
fn write_short(address: u16, data: &[u8], line: &mut [u8]) {
    let [high, low] = address.to_be_bytes();
    let head = [data.len() as u8, high, low, 0];
    let check = sum(&head).wrapping_add(sum(data)).wrapping_neg();
    line[0] = b':';
    let bytes = head.iter().chain(data).chain([&check]);
    for (pair, byte) in line[1..].chunks_exact_mut(2).zip(bytes) {
        pair.copy_from_slice(&DIGITS[*byte as usize]);
    }
    line[line.len() - 1] = b'\n';
}

/// Writes an image's text and gives the number of its characters.
pub fn write(image: &[u8], text: &mut [u8]) -> Result<usize, u8> {
    match number(image) {
        0 => {}
        refused => return Err(refused),
    }
    let length = characters(image.len());
    let text = text.get_mut(..length).ok_or(25)?;
    let (full, short) = image.as_chunks::<FULL>();
    let (lines, last) = text.split_at_mut((LINE + 1) * full.len());
    let mut address = 0;
    for (data, line) in full.iter().zip(lines.as_chunks_mut().0) {
        write_full(address, data, line);
        address += FULL as u16;
    }
    let (line, end) = last.split_at_mut(last.len() - END.len());
    if !short.is_empty() {
        write_short(address, short, line);
    }
    end.copy_from_slice(END);
    Ok(length)
}

/// A record's fields, and its bytes with the checksum added up.
struct Record {
    length: usize,
    address: usize,
    end: bool,
    sum: u8,
}

/// At least 128 where a character is no digit: numbers are moved to 0 to 9 and letters to 10 to 15, and all else is then greater.
#[inline(always)]
fn no_digit(character: u8) -> u8 {
    let number = character.wrapping_add(0xFF - b'9').saturating_sub(6).wrapping_sub(0xF0);
    let letter = (character & 0xDF).wrapping_sub(b'A').saturating_add(10);
    number.min(letter).saturating_add(0x70)
}

/// A full record's data, two digits at once, and its bytes added up; nothing where a character is no digit.
#[inline(never)]
fn joined(digits: &[u8; 2 * FULL], data: &mut [u8; FULL]) -> Option<u8> {
    for (byte, pair) in data.iter_mut().zip(digits.as_chunks().0) {
        let both = u16::from_le_bytes(*pair);
        let values = (both & 0x0F0F) + 9 * (both >> 6 & 0x0101);
        *byte = (values << 4 | values >> 8) as u8;
    }
    let bad = digits.iter().fold(0, |bad, character| bad | no_digit(*character));
    (bad & 0x80 == 0).then_some(sum(data))
}

/// The byte of two digits; the second is at least 128 where one of them is none.
#[inline(always)]
fn looked_up(digits: &[u8]) -> (u8, u8) {
    let (high, low) = (VALUES[digits[0] as usize], VALUES[digits[1] as usize]);
    (high << 4 | low, high | low)
}

/// A full data record's address and its bytes with the checksum added up, if it begins the line.
#[inline(always)]
fn full(line: &[u8; LINE], data: &mut [u8; FULL]) -> Option<(u16, u8)> {
    if line[..3] != *b":10" || line[7..9] != *b"00" {
        return None;
    }
    let sum = joined(line[9..].first_chunk()?, data)?;
    let (high, bad_high) = looked_up(&line[3..5]);
    let (low, bad_low) = looked_up(&line[5..7]);
    let (check, bad_check) = looked_up(&line[41..43]);
    if (bad_high | bad_low | bad_check) & 0x80 != 0 {
        return None;
    }
    let sum = sum.wrapping_add(FULL as u8).wrapping_add(high).wrapping_add(low).wrapping_add(check);
    Some((u16::from_be_bytes([high, low]), sum))
}

/// Any record that a line begins with, digit by digit; nothing where it is malformed.
#[inline(never)]
fn record(line: &[u8], data: &mut [u8; FULL]) -> Option<Record> {
    let (length, bad) = looked_up(line.get(1..3)?);
    let length = length as usize;
    if line[0] != b':' || bad & 0x80 != 0 || length > FULL {
        return None;
    }
    let mut bytes = [0; 5 + FULL];
    let mut any_bad = 0;
    for (byte, pair) in bytes.iter_mut().zip(line.get(1..11 + 2 * length)?.chunks_exact(2)) {
        let bad;
        (*byte, bad) = looked_up(pair);
        any_bad |= bad;
    }
    let address = u16::from_be_bytes([bytes[1], bytes[2]]) as usize;
    let end = bytes[3] == 1;
    let fits = if end { length == 0 && address == 0 } else { bytes[3] == 0 && length != 0 };
    if any_bad & 0x80 != 0 || !fits {
        return None;
    }
    data.copy_from_slice(&bytes[4..4 + FULL]);
    Some(Record { length, address, end, sum: sum(&bytes) })
}

/// What follows a record's line end; nothing where there is none.
#[inline(always)]
fn next(after: &[u8]) -> Option<&[u8]> {
    match after {
        [b'\n', rest @ ..] | [b'\r', b'\n', rest @ ..] => Some(rest),
        [] => Some(after),
        _ => None,
    }
}

/// Goes through a whole text, with each record's place in the bytes, data and length to `take`, and gives the number of bytes.
#[inline(always)]
fn scan(text: &[u8], mut take: impl FnMut(usize, &[u8; FULL], usize)) -> Result<usize, u8> {
    let (mut count, mut sums, mut gap, mut ended) = (0, 0, false, false);
    let mut rest = text;
    let mut data = [0; FULL];
    while !rest.is_empty() {
        if ended {
            return Err(27);
        }
        let full = rest.first_chunk().and_then(|line| full(line, &mut data));
        let record = match full {
            Some((address, sum)) => Record { length: FULL, address: address as usize, end: false, sum },
            None => record(rest, &mut data).ok_or(27)?,
        };
        rest = next(&rest[11 + 2 * record.length..]).ok_or(27)?;
        sums |= record.sum;
        ended = record.end;
        gap |= !ended && (record.address != count || count + record.length > 0x1_0000);
        take(count, &data, record.length);
        count += record.length;
    }
    if sums != 0 {
        return Err(28);
    }
    if gap || !ended { Err(29) } else { Ok(count) }
}

/// Reads a text's bytes and gives their number. An image's are kept until the text is known to be good; more than that are read again.
pub fn read(text: &[u8], bytes: &mut [u8]) -> Result<usize, u8> {
    let mut kept = [0; MOST + FULL];
    let count = scan(text, |at, data, _| {
        if let Some(place) = kept.get_mut(at..at + FULL) {
            place.copy_from_slice(data);
        }
    })?;
    let bytes = bytes.get_mut(..count).ok_or(25)?;
    if count <= MOST {
        bytes.copy_from_slice(&kept[..count]);
    } else {
        scan(text, |at, data, length| bytes[at..at + length].copy_from_slice(&data[..length]))?;
    }
    Ok(count)
}

/// The text of any bytes up to 65,536, for the tests: by the standard library's formatting, and allocated.
pub fn text_of(bytes: &[u8]) -> Vec<u8> {
    let mut text = String::new();
    for (i, data) in bytes.chunks(FULL).enumerate() {
        let mut record = vec![data.len() as u8, (i / 16) as u8, (i % 16 * 16) as u8, 0];
        record.extend(data);
        record.push(0u8.wrapping_sub(sum(&record)));
        let digits: String = record.iter().map(|byte| format!("{byte:02X}")).collect();
        text += &format!(":{digits}\n");
    }
    text += ":00000001FF\n";
    text.into_bytes()
}
