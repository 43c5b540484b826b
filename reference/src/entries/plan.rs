//! Entry 7. Given: the lowest and the highest quantum; the job block, the output for the
//! configuration, the output for the bounds. Answered: the placed set, the considered count; both
//! outputs.

use crate::configuration::SETTING_BYTES;
use crate::entries::faults::{Fault, Faults};
use crate::entries::{jobs_of_first_block, output_frame, Entry};
use crate::frames::Frame;
use crate::generation::call::{Form, Given, Lent, Range};
use crate::planner::plan;
use crate::refusal::Refusal;
use crate::response_time::BOUND_BYTES;

pub const PLAN: u8 = 7;

pub const ENTRY: Entry = Entry {
    number: PLAN,
    name: "plan",
    answer: |input| answer_of_plan(input, plan),
    faults: faults_of_plan,
    jobs: jobs_of_first_block,
};

pub const GIVEN: Given = Given {
    entry: PLAN,
    range: Range::Any,
    jobs: Form::Block,
    settings: None,
    full: false,
    outputs: &[
        Lent {
            bytes_per_job: SETTING_BYTES,
            longest: 80,
        },
        Lent {
            bytes_per_job: BOUND_BYTES,
            longest: 32,
        },
    ],
};

/// A planner's function.
type WritePlan = fn(&[u8], u8, u8, &mut [u8], &mut [u8]) -> Result<(u8, u16), Refusal>;

/// The output frame of a call of a planner.
pub fn answer_of_plan(input: &Frame, plan: WritePlan) -> Option<Frame> {
    let ([lowest, highest], [jobs, configuration, bounds]) = input.parts()?;
    let (mut configuration, mut bounds) = (configuration.to_vec(), bounds.to_vec());
    let answer = plan(jobs, lowest, highest, &mut configuration, &mut bounds);
    let answer = answer.map(|(placed, considered)| [u16::from(placed), considered]);
    Some(output_frame(answer, [configuration, bounds]))
}

/// The faults of a call of the mats' planner.
pub fn faults_of_plan(input: &Frame) -> Option<Vec<Fault>> {
    let ([lowest, highest], [jobs, configuration, bounds]) = input.parts()?;
    let mut faults = Faults::default();
    let count = faults.judge_job_block(jobs).len();
    faults.judge_range(lowest, highest);
    faults.judge_outputs(&[
        (configuration, SETTING_BYTES * count),
        (bounds, BOUND_BYTES * count),
    ]);
    Some(faults.found())
}
