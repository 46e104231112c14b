//! Texts worked out by hand for the second implementation's Intel HEX.

use super::hex::{read, text_of, write};
use crate::text::hex;
use crate::workload::{large, smallest};

const END: &str = ":00000001FF\n";
/// One byte AB, checksum -(01 + AB) = 54.
const AB: &str = ":01000000AB54\n";
/// One byte CD at address 1, checksum -(01 + 01 + CD) = 31.
const CD: &str = ":01000100CD31\n";

/// What is read of a text into a buffer with room; the buffer's other bytes stay.
fn reading(text: &str) -> Result<Vec<u8>, u8> {
    let mut bytes = vec![0x55; 70_000];
    let answer = read(text.as_bytes(), &mut bytes);
    let stay = answer.unwrap_or(0);
    assert!(bytes[stay..].iter().all(|byte| *byte == 0x55), "{text}");
    bytes.truncate(stay);
    answer.map(|_| bytes)
}

fn numbers(number: u8, texts: &[String]) {
    for text in texts {
        assert_eq!(reading(text), Err(number), "{text:?}");
    }
}

#[test]
fn written() {
    // 07 + 01 + 01 + 02 + 0D = 18, and -18 = E8
    let text = format!(":0700000001010002000D00E8\n{END}");
    let mut out = [0x55; 40];
    assert_eq!(write(&smallest(), &mut out), Ok(38));
    assert_eq!((&out[..38], &out[38..]), (text.as_bytes(), &[0x55; 2][..]));
    assert_eq!(write(&smallest(), &mut out[..37]), Err(25));
    assert_eq!(write(&hex("01 01 00 02 00 0D 01"), &mut []), Err(6));
    assert_eq!(reading(&text), Ok(smallest()));
}

/// A row, nine joins and a return: 10 + 01 + 10 + 0B + 9 × 0A + 0D = 93, and -93 = 6D.
#[test]
fn sixteen_bytes_are_one_record() {
    let image = hex("01 10 00 0B 00 0A 0A 0A 0A 0A 0A 0A 0A 0A 0D 00");
    let mut out = [0; 56];
    assert_eq!(write(&image, &mut out), Ok(56));
    assert_eq!(out, format!(":100000000110000B000A0A0A0A0A0A0A0A0A0D006D\n{END}").as_bytes());
}

#[test]
fn lengths() {
    let mut out = vec![0; 11_276];
    let image = large(2);
    assert_eq!(write(&image, &mut out), Ok(11_276));
    assert_eq!(out, text_of(&image));
    assert_eq!(write(&image, &mut out[..11_275]), Err(25));
    // 44 for each full record, 12 and the digits for a last short one, 12 for the end
    for count in [0, 1, 15, 16, 17, 31, 32, 33, 4096, 65_535, 65_536] {
        let short = if count % 16 == 0 { 0 } else { 12 + 2 * (count % 16) };
        assert_eq!(text_of(&vec![7; count]).len(), 44 * (count / 16) + short + 12);
    }
}

#[test]
fn good_texts() {
    assert_eq!(reading(END), Ok(vec![]));
    assert_eq!(reading(":00000001ff"), Ok(vec![]));
    assert_eq!(reading(&format!("{AB}{CD}{END}")), Ok(vec![0xAB, 0xCD]));
    assert_eq!(reading(":01000000aB54\r\n:01000100Cd31\n:00000001Ff\r\n"), Ok(vec![0xAB, 0xCD]));
    assert_eq!(reading(":01000000AB54\n:01000100CD31\r\n:00000001FF"), Ok(vec![0xAB, 0xCD]));
    // 03 + 01 + 02 + 03 = 09, and -09 = F7
    assert_eq!(reading(&format!(":03000000010203F7\n{END}")), Ok(vec![1, 2, 3]));
    let zeros = format!(":10000000{}F0\n{END}", "00".repeat(16));
    assert_eq!(reading(&zeros), Ok(vec![0; 16]));
}

/// 27: the characters, the digits' number and the line ends.
#[test]
fn malformed_lines() {
    let mut texts: Vec<String> =
        ["\n", "\r\n", " ", ":", ":0", "A", ":00000001F", ":00000001FFF", ":00000001FF0"].map(String::from).to_vec();
    for slip in ["/", ":", "@", "G", "`", "g", " ", "\0", "\r", "é"] {
        texts.push(format!(":01000000A{slip}54\n{END}"));
        texts.push(format!("{AB}:00000001F{slip}\n"));
        texts.push(format!(":10000000{}0{slip}F0\n{END}", "00".repeat(15)));
        texts.push(format!("{AB}{slip}{END}"));
    }
    for end in ["\r", "\n\r", "\r\r\n", "\n\n", "\r\n\r\n", " \n", "\n ", "\n\0", "\nx"] {
        texts.push(format!(":00000001FF{end}"));
    }
    texts.push(format!("01000000AB54\n{END}"));
    texts.push(format!(":01000000AB54\r{END}"));
    texts.push(format!(":01000000AB54{END}"));
    texts.push(format!("{AB}\n{END}"));
    texts.push(format!(" {AB}{END}"));
    texts.push(format!("{AB}{END}{CD}"));
    texts.push(format!("{AB}{END}{END}"));
    numbers(27, &texts);
}

/// 27: types and lengths, with checksums that are right.
#[test]
fn types_and_lengths() {
    let mut texts = vec![
        // no data: 00 + 00 = 00
        format!(":0000000000\n{END}"),
        // 17 bytes, and -11 = EF
        format!(":11000000{}EF\n{END}", "00".repeat(17)),
        // one byte fewer and one more than the length says: -02 = FE and -01 = FF
        format!(":0200000000FE\n{END}"),
        format!(":010000000000FF\n{END}"),
        // an end with an address, with data: -(01 + 01) = FE, -(01 + AB + 01) = 53
        ":00000101FE\n".to_string(),
        ":00010001FE\n".to_string(),
        ":01000001AB53\n".to_string(),
        // a segment and a linear address: -(02 + 02) = FC, -(02 + 04) = FA
        format!(":020000020000FC\n{AB}{END}"),
        format!(":020000040000FA\n{AB}{END}"),
    ];
    for kind in 2..=255u8 {
        texts.push(format!(":010000{kind:02X}AB{:02X}\n{END}", 0x54u8.wrapping_sub(kind)));
    }
    numbers(27, &texts);
}

#[test]
fn sums_and_places() {
    let (bad, bad_end) = (":01000000AB55\n", ":00000001FE\n");
    numbers(28, &[format!("{bad}{END}"), format!("{AB}{bad_end}"), format!("{CD}{bad_end}"), bad.to_string(), bad_end.to_string()]);
    numbers(29, &[String::new(), AB.to_string(), AB.trim_end().to_string(), format!("{CD}{END}"), format!("{AB}{AB}{END}")]);
    // AB at address 2, -(01 + 02 + AB) = 52
    numbers(29, &[format!("{AB}:01000200AB52\n{END}"), format!("{CD}{AB}{END}")]);
    // each over the whole text before the next
    numbers(27, &[format!("{bad}{CD}:00000001FG"), format!("{CD}{bad}{END}{END}"), format!("{bad}{CD}{END}\n")]);
    numbers(28, &[format!("{CD}{CD}{bad_end}"), format!("{CD}{bad}")]);
}

#[test]
fn up_to_the_last_address() {
    let bytes: Vec<u8> = (0..65_536u32).map(|i| (i * i >> 5) as u8).collect();
    let text = String::from_utf8(text_of(&bytes)).expect("characters");
    assert_eq!(reading(&text), Ok(bytes));
    let records = text.strip_suffix(END).expect("an end");
    // one more byte, at address 0 for want of another
    numbers(29, &[format!("{records}{AB}{END}"), records.to_string()]);
    // 15 bytes at FFF0 and two at FFFF: -(02 + FF + FF) = 00
    let short = &records[..records.len() - 44];
    let fifteen = format!(":0FFFF000{}02\n", "00".repeat(15));
    assert_eq!(reading(&format!("{short}{fifteen}:01FFFF000001\n{END}")).map(|bytes| bytes.len()), Ok(65_536));
    numbers(29, &[format!("{short}{fifteen}:02FFFF00000000\n{END}")]);
}

#[test]
fn short_buffers() {
    let text = format!("{AB}{CD}{END}");
    let mut bytes = [0x55; 2];
    assert_eq!(read(text.as_bytes(), &mut bytes[..1]), Err(25));
    assert_eq!(bytes, [0x55; 2]);
    assert_eq!(read(text.as_bytes(), &mut bytes), Ok(2));
    assert_eq!(read(END.as_bytes(), &mut []), Ok(0));
    assert_eq!(read(CD.as_bytes(), &mut []), Err(29));
    let long = text_of(&[3; 5000]);
    let mut bytes = [0x55; 4999];
    assert_eq!(read(&long, &mut bytes), Err(25));
    assert_eq!(bytes, [0x55; 4999]);
}
