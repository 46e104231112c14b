//! A run of the second implementation that a test watches entry by entry.

use super::image::check;
use super::machine::{Job, Machine};
use super::Answer;
use crate::generate::Case;

/// A case by a schedule: `seen` is shown each entry's number and the machine after it. Gives the answer and the memory words at the end.
pub fn watch(case: &Case, bytes: &[u8], mut seen: impl FnMut(u8, &Machine, &Job)) -> (Answer, [u32; 992]) {
    let program = check(&case.image).expect("a good image");
    let parameters = case.parameters[..].try_into().expect("32 parameter words");
    let mut memory: [u32; 992] = case.memory[..].try_into().expect("992 memory words");
    let job = Job { program: &program, parameters };
    let mut m = Machine::blank(case.cores, case.allowance);
    m.start(&program, &case.arguments);
    let mut rest = bytes;
    while !rest.is_empty() {
        let number;
        (number, rest) = match *rest {
            [1, core, ref more @ ..] => (m.step(&job, &mut memory, core), more),
            [2, core, ref more @ ..] => (m.take(core), more),
            [3, core, t, ref more @ ..] => (m.steal(&job, core, t), more),
            [4, t, ref more @ ..] => (m.enable(t), more),
            _ => unreachable!("a schedule"),
        };
        seen(number, &m, &job);
    }
    (m.answer(), memory)
}
