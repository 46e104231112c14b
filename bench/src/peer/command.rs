//! Command bytes and weights.

pub const SET: u8 = 0x01;
pub const ADD: u8 = 0x02;
pub const SUBTRACT: u8 = 0x03;
pub const LOAD: u8 = 0x04;
pub const STORE: u8 = 0x05;
pub const IF_ZERO: u8 = 0x06;
pub const GO: u8 = 0x07;
pub const LFORK: u8 = 0x08;
pub const FORK: u8 = 0x09;
pub const JOIN: u8 = 0x0A;
pub const SUSPEND: u8 = 0x0B;
pub const YIELD: u8 = 0x0C;
pub const RETURN: u8 = 0x0D;
pub const SHARE: u8 = 0x0E;

/// Weights by command byte.
pub const WEIGHTS: [u32; 16] = [0, 1, 1, 1, 2, 2, 1, 1, 6, 12, 1, 3, 3, 1, 1, 0];

/// Bytes of a command, by command byte.
pub const SIZES: [u16; 16] = [0, 4, 4, 4, 3, 3, 4, 3, 5, 5, 1, 1, 1, 2, 2, 0];

/// A command's first eight bytes, the command byte lowest. What lies behind a short command is never looked at.
#[derive(Clone, Copy)]
pub struct Word(pub u64);

impl Word {
    #[inline(always)]
    pub fn op(self) -> u8 {
        self.0 as u8
    }
    /// The one-byte operand number `i`, from 1.
    #[inline(always)]
    pub fn byte(self, i: u32) -> u8 {
        (self.0 >> (8 * i)) as u8
    }
    /// The two-byte operand that starts at byte `i`.
    #[inline(always)]
    pub fn half(self, i: u32) -> u16 {
        (self.0 >> (8 * i)) as u16
    }
}

/// A mask with slot `s`'s bit.
#[inline(always)]
pub fn bit(s: u8) -> u32 {
    1 << (s & 15)
}

/// Whether a slot that is asked for is pending; most threads have none that is.
#[inline(always)]
pub fn waits<const N: usize>(pending: u32, asked: [u8; N]) -> bool {
    pending != 0 && asked.iter().any(|s| pending >> (s & 31) & 1 == 1)
}
