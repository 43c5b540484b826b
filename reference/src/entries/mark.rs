//! Entry 6. Given: the lowest and the highest quantum; the job block, the configuration block, the
//! output. Answered: 1 if the configuration passes, else 0; the output.

use crate::entries::faults::{Fault, Faults, CONFIGURATION};
use crate::entries::{bounds, jobs_of_first_block, output_frame, Entry};
use crate::frames::Frame;
use crate::generation::call::Given;
use crate::marker::{judge_full, mark};
use crate::refusal::Refusal;
use crate::response_time::BOUND_BYTES;

pub const MARK: u8 = 6;

pub const ENTRY: Entry = Entry {
    number: MARK,
    name: "mark",
    answer: |input| answer_of_mark(input, mark),
    faults: faults_of_mark,
    jobs: jobs_of_first_block,
};

pub const GIVEN: Given = Given {
    entry: MARK,
    full: true,
    ..bounds::GIVEN
};

/// A marker's function.
type WriteMark = fn(&[u8], u8, u8, &[u8], &mut [u8]) -> Result<bool, Refusal>;

/// The output frame of a call of a marker.
pub fn answer_of_mark(input: &Frame, mark: WriteMark) -> Option<Frame> {
    let ([lowest, highest], [jobs, configuration, output]) = input.parts()?;
    let mut output = output.to_vec();
    let answer = mark(jobs, lowest, highest, configuration, &mut output);
    let answer = answer.map(|passes| [u16::from(passes)]);
    Some(output_frame(answer, [output]))
}

/// The faults of a call of the mats' marker.
pub fn faults_of_mark(input: &Frame) -> Option<Vec<Fault>> {
    let ([lowest, highest], [jobs, configuration, output]) = input.parts()?;
    let mut faults = Faults::default();
    let (jobs, settings) = faults.judge_configured(jobs, lowest, highest, configuration);
    faults.judge_records(CONFIGURATION, &settings, judge_full);
    faults.judge_outputs(&[(output, BOUND_BYTES * jobs.len())]);
    Some(faults.found())
}
