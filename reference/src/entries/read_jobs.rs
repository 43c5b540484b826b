//! Entry 1. Given: no numbers; the job block. Answered: the count; the table.

use crate::entries::faults::{Fault, Faults};
use crate::entries::{jobs_of_first_block, output_frame, Entry};
use crate::frames::Frame;
use crate::generation::call::{Form, Given, Range};
use crate::jobs::{read_jobs, records_of_jobs};

pub const READ_JOBS: u8 = 1;

pub const ENTRY: Entry = Entry {
    number: READ_JOBS,
    name: "read_jobs",
    answer,
    faults,
    jobs: jobs_of_first_block,
};

pub const GIVEN: Given = Given {
    entry: READ_JOBS,
    range: Range::None,
    jobs: Form::Block,
    settings: None,
    full: false,
    outputs: &[],
};

fn answer(input: &Frame) -> Option<Frame> {
    let ([], [block]) = input.parts::<u16, 0, 1>()?;
    let (answer, table) = read_jobs(block);
    let answer = answer.map(|count| [count as u16]);
    Some(output_frame(answer, [records_of_jobs(&table)]))
}

fn faults(input: &Frame) -> Option<Vec<Fault>> {
    let ([], [block]) = input.parts::<u16, 0, 1>()?;
    let mut faults = Faults::default();
    faults.judge_job_block(block);
    Some(faults.found())
}
