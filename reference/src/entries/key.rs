//! Entry 10, the key program. Given: the lowest and the highest quantum, which are always 1 and 4;
//! the job block. Answered: no numbers and never a refusal, as the text tells it; the text.

use crate::configuration::QuantumRange;
use crate::entries::faults::{Fault, Faults};
use crate::entries::{jobs_of_first_block, output_frame, Entry};
use crate::frames::Frame;
use crate::generation::call::{Form, Given, Range};
use crate::key::{key, KEY_RANGE};

pub const KEY: u8 = 10;

pub const ENTRY: Entry = Entry {
    number: KEY,
    name: "key",
    answer,
    faults,
    jobs: jobs_of_first_block,
};

pub const GIVEN: Given = Given {
    entry: KEY,
    range: Range::Fixed(KEY_RANGE),
    jobs: Form::Block,
    settings: None,
    full: false,
    outputs: &[],
};

/// The job block, if the range is the program's.
fn job_block(input: &Frame) -> Option<&[u8]> {
    let ([lowest, highest], [block]) = input.parts()?;
    (QuantumRange { lowest, highest } == KEY_RANGE).then_some(block)
}

fn answer(input: &Frame) -> Option<Frame> {
    let text = key(job_block(input)?);
    Some(output_frame(Ok([]), [text.into_bytes()]))
}

fn faults(input: &Frame) -> Option<Vec<Fault>> {
    let mut faults = Faults::default();
    faults.judge_job_block(job_block(input)?);
    Some(faults.found())
}
