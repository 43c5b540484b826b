//! Entry 4. Given: the lowest and the highest quantum, the count; the job block, the whole table,
//! the output. Answered: the bytes written; the output.

use crate::configuration::{settings_of_records, write_configuration, SettingTable, SETTING_BYTES};
use crate::entries::faults::{Fault, Faults};
use crate::entries::{byte, jobs_of_first_block, output_frame, whole_records, Entry};
use crate::frames::Frame;
use crate::generation::call::{Form, Given, Lent, Range};
use crate::jobs::MOST_JOBS;

pub const WRITE_CONFIGURATION: u8 = 4;

pub const ENTRY: Entry = Entry {
    number: WRITE_CONFIGURATION,
    name: "write_configuration",
    answer,
    faults,
    jobs: jobs_of_first_block,
};

pub const GIVEN: Given = Given {
    entry: WRITE_CONFIGURATION,
    range: Range::Any,
    jobs: Form::Block,
    settings: Some(Form::Table),
    full: false,
    outputs: &[Lent {
        bytes_per_job: SETTING_BYTES,
        longest: 80,
    }],
};

/// The table of a block.
fn table_of_block(block: &[u8]) -> Option<SettingTable> {
    let settings = settings_of_records(whole_records(block, SETTING_BYTES)?);
    settings.try_into().ok()
}

fn answer(input: &Frame) -> Option<Frame> {
    let ([lowest, highest, count], [jobs, table, output]) = input.parts::<u16, 3, 3>()?;
    let (lowest, highest, count) = (byte(lowest)?, byte(highest)?, usize::from(count));
    let table = table_of_block(table)?;
    let mut output = output.to_vec();
    let answer = write_configuration(jobs, lowest, highest, &table, count, &mut output);
    let answer = answer.map(|written| [written as u16]);
    Some(output_frame(answer, [output]))
}

fn faults(input: &Frame) -> Option<Vec<Fault>> {
    let ([lowest, highest, count], [jobs, table, output]) = input.parts::<u16, 3, 3>()?;
    let (table, count) = (table_of_block(table)?, usize::from(count));
    let mut faults = Faults::default();
    let jobs = faults.judge_job_block(jobs);
    let range = faults.judge_range(byte(lowest)?, byte(highest)?);
    let settings = &table[..count.min(MOST_JOBS)];
    faults.judge_settings(&jobs, range, settings, count == jobs.len());
    faults.judge_outputs(&[(output, SETTING_BYTES * jobs.len())]);
    Some(faults.found())
}
