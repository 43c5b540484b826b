//! Entry 2. Given: the count; the whole table, the output. Answered: the bytes written; the output.

use crate::entries::faults::{Fault, Faults};
use crate::entries::{output_frame, whole_records, Entry};
use crate::frames::Frame;
use crate::generation::call::{Form, Given, Lent, Range};
use crate::jobs::{
    jobs_of_records, judge_table_count, write_jobs, Job, JobTable, JOB_BYTES, MOST_JOBS,
};

pub const WRITE_JOBS: u8 = 2;

pub const ENTRY: Entry = Entry {
    number: WRITE_JOBS,
    name: "write_jobs",
    answer,
    faults,
    jobs,
};

pub const GIVEN: Given = Given {
    entry: WRITE_JOBS,
    range: Range::None,
    jobs: Form::Table,
    settings: None,
    full: false,
    outputs: &[Lent {
        bytes_per_job: JOB_BYTES,
        longest: 80,
    }],
};

/// The count, the table and the output.
fn parts(input: &Frame) -> Option<(usize, JobTable, &[u8])> {
    let ([count], [table, output]) = input.parts()?;
    let table = jobs_of_records(whole_records(table, JOB_BYTES)?);
    Some((count, table.try_into().ok()?, output))
}

/// The table's jobs up to the count, or all of them.
fn jobs(input: &Frame) -> Option<Vec<Job>> {
    let (count, table, _) = parts(input)?;
    Some(table[..count.min(MOST_JOBS)].to_vec())
}

fn answer(input: &Frame) -> Option<Frame> {
    let (count, table, output) = parts(input)?;
    let mut output = output.to_vec();
    let answer = write_jobs(&table, count, &mut output).map(|written| [written as u16]);
    Some(output_frame(answer, [output]))
}

fn faults(input: &Frame) -> Option<Vec<Fault>> {
    let (count, _, output) = parts(input)?;
    let jobs = jobs(input)?;
    let mut faults = Faults::default();
    faults.judge(judge_table_count(count));
    faults.judge_jobs(&jobs);
    faults.judge_outputs(&[(output, JOB_BYTES * jobs.len())]);
    Some(faults.found())
}
