//! Entry 12. Given: the lowest and the highest quantum, the lowest and the highest priority; the job
//! block, the kernel block, the output. Answered: no numbers; the output.

use crate::configuration::{QuantumRange, SETTING_BYTES};
use crate::entries::faults::{Fault, Faults, CONFIGURATION};
use crate::entries::{jobs_of_first_block, output_frame, to_kernel, Entry};
use crate::frames::Frame;
use crate::generation::call::Given;
use crate::jobs::Job;
use crate::kernel::{
    from_kernel, judge_kernel_identity, judge_kernel_shapes, judge_kernel_sharing,
    judge_priorities, kernel_records_of_bytes, KernelPriority, KERNEL_BYTES,
};
use crate::refusal::Refusal;

pub const FROM_KERNEL: u8 = 12;

pub const ENTRY: Entry = Entry {
    number: FROM_KERNEL,
    name: "from_kernel",
    answer,
    faults,
    jobs: jobs_of_first_block,
};

/// What it is given besides the priorities, which come after the quanta. Kernel records stand in
/// place of the settings.
pub const GIVEN: Given = Given {
    entry: FROM_KERNEL,
    ..to_kernel::GIVEN
};

fn answer(input: &Frame) -> Option<Frame> {
    let ([low, high, lowest, highest], [jobs, kernel, output]) = input.parts()?;
    let mut output = output.to_vec();
    let answer = from_kernel(jobs, low, high, lowest, highest, kernel, &mut output);
    Some(output_frame(answer.map(|()| []), [output]))
}

/// Notes refusals 7, 8, 14, 9 and 10 of a kernel block.
fn judge_kernel_block(
    faults: &mut Faults,
    jobs: &[Job],
    range: QuantumRange,
    highest: u8,
    block: &[u8],
) {
    if block.len() != KERNEL_BYTES * jobs.len() {
        faults.judge(Err(Refusal::ConfigurationCount));
    }
    let records = kernel_records_of_bytes(block);
    faults.judge_records(CONFIGURATION, &records, |some| {
        judge_kernel_identity(jobs, some)
    });
    faults.judge_records(CONFIGURATION, &records, |some| {
        judge_priorities(some, jobs.len(), KernelPriority(highest))
    });
    faults.judge_records(CONFIGURATION, &records, |some| {
        judge_kernel_shapes(some, range)
    });
    faults.judge(judge_kernel_sharing(&records));
}

fn faults(input: &Frame) -> Option<Vec<Fault>> {
    let ([low, high, lowest, highest], [jobs, kernel, output]) = input.parts()?;
    let mut faults = Faults::default();
    let jobs = faults.judge_job_block(jobs);
    let range = faults.judge_range(low, high);
    faults.judge_priority_range(lowest, highest, &jobs);
    judge_kernel_block(&mut faults, &jobs, range, highest, kernel);
    faults.judge_outputs(&[(output, SETTING_BYTES * jobs.len())]);
    Some(faults.found())
}
