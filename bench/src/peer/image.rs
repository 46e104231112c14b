//! The image reader: numbers 1 to 8 in document 01's order.

use super::command::*;

pub const MOST: usize = 4096;
/// Room to read eight bytes from any offset.
pub const PADDED: usize = MOST + 8;

/// A routine: its slots, arguments, and its code's first byte in the image.
#[derive(Clone, Copy, Default, Debug, PartialEq, Eq)]
pub struct Row {
    pub slots: u8,
    pub arguments: u8,
    pub start: u16,
    pub length: u16,
}

/// An accepted image. Targets in `bytes` count from the image's start, not the routine's.
#[derive(Clone)]
pub struct Program {
    pub bytes: [u8; PADDED],
    pub rows: [Row; 32],
    pub count: u8,
}

impl Program {
    pub fn blank() -> Program {
        Program { bytes: [0; PADDED], rows: [Row::default(); 32], count: 0 }
    }

    /// The command at an offset of the image.
    #[inline(always)]
    pub fn word(&self, offset: u16) -> Word {
        let at = offset as usize & (MOST - 1);
        let mut eight = [0; 8];
        eight.copy_from_slice(&self.bytes[at..at + 8]);
        Word(u64::from_le_bytes(eight))
    }

    #[inline(always)]
    pub fn row(&self, routine: u8) -> Row {
        self.rows[routine as usize & 31]
    }

    /// Whether a command of any routine has one of these bytes.
    pub fn has(&self, bytes: &[u8]) -> bool {
        self.rows[..self.count as usize].iter().any(|row| {
            let mut at = row.start;
            while at < row.start + row.length {
                let op = self.word(at).op();
                if bytes.contains(&op) {
                    return true;
                }
                at += SIZES[op as usize & 15];
            }
            false
        })
    }
}

/// Where commands begin, a byte for each of the image's first N, and where targets stand, a bit for each.
struct Found<const N: usize> {
    starts: [bool; N],
    targets: [u64; MOST / 64],
}

impl<const N: usize> Found<N> {
    #[inline(always)]
    fn target(&mut self, place: usize) {
        self.targets[(place / 64) & 63] |= 1 << (place % 64);
    }
}

/// The rows of an image whose whole-length tests, 2, rows and total, and 3 pass.
fn rows_of(image: &[u8]) -> Result<([Row; 32], u8), u8> {
    if image.is_empty() || image.len() > MOST {
        return Err(1);
    }
    let count = image[0] as usize;
    if count == 0 || count > 32 {
        return Err(2);
    }
    let Some(table) = image.get(1..1 + 4 * count) else {
        return Err(1);
    };
    let mut rows = [Row::default(); 32];
    let mut start = 1 + 4 * count;
    for (row, bytes) in rows.iter_mut().zip(table.chunks_exact(4)) {
        let length = u16::from_le_bytes([bytes[2], bytes[3]]);
        *row = Row { slots: bytes[0], arguments: bytes[1], start: start as u16, length };
        start += length as usize;
        if start > image.len() {
            return Err(1);
        }
    }
    if start != image.len() {
        return Err(1);
    }
    for row in &rows[..count] {
        if row.slots == 0 || row.slots > 16 || row.arguments > row.slots || row.length == 0 {
            return Err(3);
        }
    }
    Ok((rows, count as u8))
}

/// A routine's code command by command: 4, 5 and 6, then 7. Each kind has its own arm, so that the next command's place is known by
/// prediction and not by a load. A last command that is too long is seen at the end, or where it is not good.
fn walk<const N: usize>(program: &Program, row: Row, found: &mut Found<N>) -> Result<(), u8> {
    let (slots, end) = (row.slots, row.start as usize + row.length as usize);
    let mut at = row.start as usize;
    let mut last = 0;
    while at < end {
        found.starts[at & (N - 1)] = true;
        let word = program.word(at as u16);
        let (a, b, c, d) = (word.byte(1), word.byte(2), word.byte(3), word.byte(4));
        last = word.op();
        let (size, good) = match last {
            JOIN | SUSPEND | YIELD => (1, true),
            SET => (4, a < slots),
            IF_ZERO => {
                found.target(at + 2);
                (4, a < slots)
            }
            ADD | SUBTRACT => (4, a < slots && b < slots && c < slots),
            LOAD | STORE => (3, a < slots && b < slots),
            GO => {
                found.target(at + 1);
                (3, true)
            }
            LFORK | FORK => {
                let run = c as u32 + program.row(a).arguments as u32;
                (5, a < program.count && b < slots && d < slots && run <= slots as u32)
            }
            RETURN | SHARE => (2, a < slots),
            _ => return Err(4),
        };
        at += size;
        if !good {
            return Err(if at > end { 5 } else { 6 });
        }
    }
    if at > end {
        return Err(5);
    }
    if last != GO && last != RETURN { Err(7) } else { Ok(()) }
}

/// A routine's targets, which become offsets of the image: 8.
fn land<const N: usize>(program: &mut Program, row: Row, found: &mut Found<N>) -> Result<(), u8> {
    let (first, last) = (row.start as usize / 64, (row.start + row.length - 1) as usize / 64);
    for i in first..=last {
        let mut bits = std::mem::take(&mut found.targets[i & 63]);
        while bits != 0 {
            let place = 64 * i + bits.trailing_zeros() as usize;
            bits &= bits - 1;
            let target = u16::from_le_bytes([program.bytes[place], program.bytes[place + 1]]);
            let to = row.start.wrapping_add(target);
            if target >= row.length || !found.starts[to as usize & (N - 1)] {
                return Err(8);
            }
            program.bytes[place..place + 2].copy_from_slice(&to.to_le_bytes());
        }
    }
    Ok(())
}

/// All routines of an image of at most N bytes.
fn check_code<const N: usize>(program: &mut Program) -> Result<(), u8> {
    let mut found = Found { starts: [false; N], targets: [0; MOST / 64] };
    for r in 0..program.count {
        let row = program.row(r);
        walk(program, row, &mut found)?;
        land(program, row, &mut found)?;
    }
    Ok(())
}

/// Reads an image into a blank program, or gives the number of the first test that it meets.
#[inline]
pub fn read(image: &[u8], program: &mut Program) -> Result<(), u8> {
    (program.rows, program.count) = rows_of(image)?;
    program.bytes[..image.len()].copy_from_slice(image);
    if image.len() <= 512 { check_code::<512>(program) } else { check_code::<MOST>(program) }
}

/// An image's program, or the number of the first test that it meets.
pub fn check(image: &[u8]) -> Result<Program, u8> {
    let mut program = Program::blank();
    read(image, &mut program)?;
    Ok(program)
}

/// An image's number; 0 where it is accepted.
pub fn number(image: &[u8]) -> u8 {
    let mut program = Program::blank();
    read(image, &mut program).err().unwrap_or(0)
}
