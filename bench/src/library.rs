//! The proved crates, called through the static libraries (`crates/abi*`). This is the only module of the tests with `unsafe` in it.
//! A program that includes it calls some of them and links only those.
#![allow(dead_code)]

use bench::peer::house::Housed;
use bench::peer::run::{Fed, Ran};
use bench::peer::{Answer, PlainAnswer};

extern "C" {
    fn hofnulda_check(image: *const u8, image_length: usize) -> u8;
    fn hofnulda_serial(
        image: *const u8,
        image_length: usize,
        arguments: *const u32,
        arguments_length: usize,
        parameters: *const u32,
        parameters_length: usize,
        memory: *mut u32,
        memory_length: usize,
        allowance: u32,
        answer: *mut [u32; 3],
    );
    fn hofnulda_run(
        image: *const u8,
        image_length: usize,
        cores: u8,
        arguments: *const u32,
        arguments_length: usize,
        parameters: *const u32,
        parameters_length: usize,
        memory: *mut u32,
        memory_length: usize,
        allowance: u32,
        schedule: *const u8,
        schedule_length: usize,
        log: *mut u8,
        log_length: usize,
        answer: *mut [u32; 4],
        counts: *mut [usize; 6],
        statuses: *mut [u8; 32],
        words: *mut [u32; 1024],
    );
    fn hofnulda_scheduled(
        image: *const u8,
        image_length: usize,
        cores: u8,
        arguments: *const u32,
        arguments_length: usize,
        parameters: *const u32,
        parameters_length: usize,
        memory: *mut u32,
        memory_length: usize,
        allowance: u32,
        buffer: *mut u8,
        buffer_length: usize,
        answer: *mut [u32; 4],
        counts: *mut [usize; 6],
        statuses: *mut [u8; 32],
        words: *mut [u32; 1024],
    ) -> usize;
    fn hofnulda_hex_write(image: *const u8, image_length: usize, text: *mut u8, text_length: usize, answer: *mut [usize; 2]);
    fn hofnulda_hex_read(text: *const u8, text_length: usize, bytes: *mut u8, bytes_length: usize, answer: *mut [usize; 2]);
}

pub fn check(image: &[u8]) -> u8 {
    unsafe { hofnulda_check(image.as_ptr(), image.len()) }
}

pub fn serial(fed: Fed, memory: &mut [u32]) -> PlainAnswer {
    let mut answer = [0; 3];
    unsafe {
        hofnulda_serial(
            fed.image.as_ptr(),
            fed.image.len(),
            fed.arguments.as_ptr(),
            fed.arguments.len(),
            fed.parameters.as_ptr(),
            fed.parameters.len(),
            memory.as_mut_ptr(),
            memory.len(),
            fed.allowance,
            &mut answer,
        );
    }
    match answer {
        [1, result, units] => PlainAnswer::Finished { result, units },
        [_, number, units] => PlainAnswer::Stopped { number: number as u8, units },
    }
}

/// What the answer's words say.
fn answered(answer: [u32; 4]) -> Answer {
    match answer {
        [0, number, _, _] => Answer::Refused(number as u8),
        [1, result, units, _] => Answer::Finished { result, units },
        [2, number, thread, offset] => {
            Answer::Faulted { number: number as u8, thread: thread as u8, offset: offset as u16 }
        }
        [_, units, _, _] => Answer::Open { units },
    }
}

/// What a run writes beside the memory and its log or entries.
pub struct Outputs {
    answer: [u32; 4],
    ran: Ran,
}

impl Outputs {
    /// Before a call: no run ends with these, so that an output that is not written shows.
    pub fn unwritten() -> Outputs {
        let ran = Ran { answer: Answer::Refused(0), counts: [33; 6], statuses: [u8::MAX; 32], words: [u32::MAX; 1024] };
        Outputs { answer: [0; 4], ran }
    }

    /// A run's outputs with its answer; of a refused run the answer alone.
    fn told(mut self) -> Ran {
        self.ran.answer = answered(self.answer);
        if let Answer::Refused(number) = self.ran.answer {
            return Ran::refused(number);
        }
        self.ran
    }
}

pub fn run(fed: Fed, memory: &mut [u32], schedule: &[u8], log: &mut [u8]) -> Ran {
    let mut outputs = Outputs::unwritten();
    run_to(fed, memory, schedule, log, &mut outputs);
    outputs.told()
}

/// The call alone, its outputs written where they stand.
pub fn run_to(fed: Fed, memory: &mut [u32], schedule: &[u8], log: &mut [u8], outputs: &mut Outputs) {
    unsafe {
        hofnulda_run(
            fed.image.as_ptr(),
            fed.image.len(),
            fed.cores,
            fed.arguments.as_ptr(),
            fed.arguments.len(),
            fed.parameters.as_ptr(),
            fed.parameters.len(),
            memory.as_mut_ptr(),
            memory.len(),
            fed.allowance,
            schedule.as_ptr(),
            schedule.len(),
            log.as_mut_ptr(),
            log.len(),
            &mut outputs.answer,
            &mut outputs.ran.counts,
            &mut outputs.ran.statuses,
            &mut outputs.ran.words,
        );
    }
}

/// The built-in scheduler, with the bytes of its buffer that it used.
pub fn scheduled(fed: Fed, memory: &mut [u32], buffer: &mut [u8]) -> Housed {
    let mut outputs = Outputs::unwritten();
    let used = scheduled_to(fed, memory, buffer, &mut outputs);
    Housed { ran: outputs.told(), used }
}

/// The call alone, its outputs written where they stand.
pub fn scheduled_to(fed: Fed, memory: &mut [u32], buffer: &mut [u8], outputs: &mut Outputs) -> usize {
    unsafe {
        hofnulda_scheduled(
            fed.image.as_ptr(),
            fed.image.len(),
            fed.cores,
            fed.arguments.as_ptr(),
            fed.arguments.len(),
            fed.parameters.as_ptr(),
            fed.parameters.len(),
            memory.as_mut_ptr(),
            memory.len(),
            fed.allowance,
            buffer.as_mut_ptr(),
            buffer.len(),
            &mut outputs.answer,
            &mut outputs.ran.counts,
            &mut outputs.ran.statuses,
            &mut outputs.ran.words,
        )
    }
}

fn counted(answer: [usize; 2]) -> Result<usize, u8> {
    match answer {
        [1, count] => Ok(count),
        [_, number] => Err(number as u8),
    }
}

/// An image's Intel HEX text; the number of its characters.
pub fn hex_write(image: &[u8], text: &mut [u8]) -> Result<usize, u8> {
    let mut answer = [0; 2];
    unsafe {
        hofnulda_hex_write(image.as_ptr(), image.len(), text.as_mut_ptr(), text.len(), &mut answer);
    }
    counted(answer)
}

/// An Intel HEX text's bytes; their number.
pub fn hex_read(text: &[u8], bytes: &mut [u8]) -> Result<usize, u8> {
    let mut answer = [0; 2];
    unsafe {
        hofnulda_hex_read(text.as_ptr(), text.len(), bytes.as_mut_ptr(), bytes.len(), &mut answer);
    }
    counted(answer)
}
