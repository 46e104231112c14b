//! Images written command by command.

use crate::peer::command::*;

/// A routine's code under construction.
#[derive(Clone, Default)]
pub struct Code {
    pub bytes: Vec<u8>,
}

impl Code {
    pub fn here(&self) -> u16 {
        self.bytes.len() as u16
    }
    pub fn set(&mut self, d: u8, v: u16) {
        let [low, high] = v.to_le_bytes();
        self.bytes.extend([SET, d, low, high]);
    }
    pub fn add(&mut self, d: u8, a: u8, b: u8) {
        self.bytes.extend([ADD, d, a, b]);
    }
    pub fn subtract(&mut self, d: u8, a: u8, b: u8) {
        self.bytes.extend([SUBTRACT, d, a, b]);
    }
    pub fn load(&mut self, d: u8, a: u8) {
        self.bytes.extend([LOAD, d, a]);
    }
    pub fn store(&mut self, a: u8, b: u8) {
        self.bytes.extend([STORE, a, b]);
    }
    /// A jump whose target is given later by `land`.
    pub fn if_zero(&mut self, a: u8) -> usize {
        self.bytes.extend([IF_ZERO, a, 0, 0]);
        self.bytes.len() - 2
    }
    pub fn go(&mut self, target: u16) {
        let [low, high] = target.to_le_bytes();
        self.bytes.extend([GO, low, high]);
    }
    pub fn land(&mut self, place: usize) {
        let [low, high] = self.here().to_le_bytes();
        self.bytes[place] = low;
        self.bytes[place + 1] = high;
    }
    /// `op` is LFORK or FORK.
    pub fn fork(&mut self, op: u8, r: u8, d: u8, a: u8, w: u8) {
        self.bytes.extend([op, r, d, a, w]);
    }
    pub fn join(&mut self) {
        self.bytes.push(JOIN);
    }
    pub fn suspend(&mut self) {
        self.bytes.push(SUSPEND);
    }
    pub fn yields(&mut self) {
        self.bytes.push(YIELD);
    }
    pub fn share(&mut self, a: u8) {
        self.bytes.extend([SHARE, a]);
    }
    pub fn returns(&mut self, a: u8) {
        self.bytes.extend([RETURN, a]);
    }
}

/// A routine's row and code.
#[derive(Clone)]
pub struct Routine {
    pub slots: u8,
    pub arguments: u8,
    pub code: Vec<u8>,
}

pub fn image(routines: &[Routine]) -> Vec<u8> {
    let mut bytes = vec![routines.len() as u8];
    for routine in routines {
        bytes.extend([routine.slots, routine.arguments]);
        bytes.extend((routine.code.len() as u16).to_le_bytes());
    }
    for routine in routines {
        bytes.extend(&routine.code);
    }
    bytes
}
