//! Entry 3. Given: the lowest and the highest quantum; the job block, the configuration block.
//! Answered: the count; the table.

use crate::configuration::{read_configuration, records_of_settings};
use crate::entries::faults::{Fault, Faults};
use crate::entries::{jobs_of_first_block, output_frame, Entry};
use crate::frames::Frame;
use crate::generation::call::{Form, Given, Range};

pub const READ_CONFIGURATION: u8 = 3;

pub const ENTRY: Entry = Entry {
    number: READ_CONFIGURATION,
    name: "read_configuration",
    answer,
    faults,
    jobs: jobs_of_first_block,
};

pub const GIVEN: Given = Given {
    entry: READ_CONFIGURATION,
    range: Range::Any,
    jobs: Form::Block,
    settings: Some(Form::Block),
    full: false,
    outputs: &[],
};

fn answer(input: &Frame) -> Option<Frame> {
    let ([lowest, highest], [jobs, configuration]) = input.parts()?;
    let (answer, table) = read_configuration(jobs, lowest, highest, configuration);
    let answer = answer.map(|count| [count as u16]);
    Some(output_frame(answer, [records_of_settings(&table)]))
}

fn faults(input: &Frame) -> Option<Vec<Fault>> {
    let ([lowest, highest], [jobs, configuration]) = input.parts()?;
    let mut faults = Faults::default();
    faults.judge_configured(jobs, lowest, highest, configuration);
    Some(faults.found())
}
