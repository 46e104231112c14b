//! A second implementation of document 01 and of what document 02 adds, written from the documents alone and sharing nothing with the proved
//! crates. It is what the differential tests compare with and what the benchmarks measure against: compact records, state behind `&mut`,
//! nothing allocated, no `unsafe`.
#![forbid(unsafe_code)]

pub mod command;
pub mod hex;
pub mod house;
pub mod image;
pub mod machine;
pub mod plain;
pub mod run;
pub mod window;
#[cfg(test)]
mod hex_tests;
#[cfg(test)]
mod order_tests;
#[cfg(test)]
mod share_tests;
#[cfg(test)]
mod stacklet_tests;
#[cfg(test)]
mod tests;
#[cfg(test)]
mod watch;

/// How a run by schedule or a house run ended.
#[derive(Clone, Copy, Debug, PartialEq, Eq)]
pub enum Answer {
    Refused(u8),
    Finished { result: u32, units: u32 },
    Faulted { number: u8, thread: u8, offset: u16 },
    Open { units: u32 },
}

/// How a plain run ended; the units are those so far.
#[derive(Clone, Copy, Debug, PartialEq, Eq)]
pub enum PlainAnswer {
    Finished { result: u32, units: u32 },
    Stopped { number: u8, units: u32 },
}
