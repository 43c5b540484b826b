//! Entry 11. Given: the lowest and the highest quantum, the lowest and the highest priority; the job
//! block, the configuration block, the output. Answered: no numbers; the output.

use crate::entries::faults::{Fault, Faults, CONFIGURATION};
use crate::entries::{jobs_of_first_block, output_frame, Entry};
use crate::frames::Frame;
use crate::generation::call::{Form, Given, Lent, Range};
use crate::kernel::{to_kernel, KERNEL_BYTES};
use crate::marker::judge_full;

pub const TO_KERNEL: u8 = 11;

pub const ENTRY: Entry = Entry {
    number: TO_KERNEL,
    name: "to_kernel",
    answer,
    faults,
    jobs: jobs_of_first_block,
};

/// What it is given besides the priorities, which come after the quanta.
pub const GIVEN: Given = Given {
    entry: TO_KERNEL,
    range: Range::Any,
    jobs: Form::Block,
    settings: Some(Form::Block),
    full: true,
    outputs: &[Lent {
        bytes_per_job: KERNEL_BYTES,
        longest: 80,
    }],
};

fn answer(input: &Frame) -> Option<Frame> {
    let ([low, high, lowest, highest], [jobs, configuration, output]) = input.parts()?;
    let mut output = output.to_vec();
    let answer = to_kernel(jobs, low, high, lowest, highest, configuration, &mut output);
    Some(output_frame(answer.map(|()| []), [output]))
}

fn faults(input: &Frame) -> Option<Vec<Fault>> {
    let ([low, high, lowest, highest], [jobs, configuration, output]) = input.parts()?;
    let mut faults = Faults::default();
    let (jobs, settings) = faults.judge_configured(jobs, low, high, configuration);
    faults.judge_priority_range(lowest, highest, &jobs);
    faults.judge_records(CONFIGURATION, &settings, judge_full);
    faults.judge_outputs(&[(output, KERNEL_BYTES * jobs.len())]);
    Some(faults.found())
}
