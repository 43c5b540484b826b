//! The start gate: the limits of a box, refusal 15, and the planner and the marker within limits.

use crate::configuration::{jobs_and_range, QuantumRange, LONGEST_QUANTUM};
use crate::jobs::{Job, MOST_JOBS};
use crate::marker::write_mark;
use crate::planner::write_plan;
use crate::refusal::Refusal;

/// The most jobs and the highest quantum that a box takes.
#[derive(Clone, Copy, Debug, PartialEq, Eq)]
pub struct Limits {
    pub most_jobs: usize,
    pub highest_quantum: u8,
}

impl Limits {
    /// "The mats keep eight and 64", which refusals 1 and 6 hold a call to.
    pub const MATS: Limits = Limits {
        most_jobs: MOST_JOBS,
        highest_quantum: LONGEST_QUANTUM,
    };

    /// "at most four jobs and a highest quantum of 16".
    pub const GATE: Limits = Limits {
        most_jobs: 4,
        highest_quantum: 16,
    };
}

/// Refusal 15: "the gate's entry got more than four jobs or a highest quantum above 16". The quanta
/// of a configuration's records play no part.
pub fn judge_limits(limits: Limits, job_count: usize, highest: u8) -> Result<(), Refusal> {
    if job_count > limits.most_jobs || highest > limits.highest_quantum {
        return Err(Refusal::GateLimits);
    }
    Ok(())
}

/// The jobs of a block and the range, within limits: refusals 1, 2, 3, 5 and 6, and 15 "after 6".
fn jobs_and_range_within(
    limits: Limits,
    job_block: &[u8],
    lowest: u8,
    highest: u8,
) -> Result<(Vec<Job>, QuantumRange), Refusal> {
    let (jobs, range) = jobs_and_range(job_block, lowest, highest)?;
    judge_limits(limits, jobs.len(), range.highest)?;
    Ok((jobs, range))
}

/// The plan of a job block and a range within limits.
pub fn plan_within(
    limits: Limits,
    job_block: &[u8],
    lowest: u8,
    highest: u8,
    configuration_output: &mut [u8],
    bounds_output: &mut [u8],
) -> Result<(u8, u16), Refusal> {
    let (jobs, range) = jobs_and_range_within(limits, job_block, lowest, highest)?;
    write_plan(&jobs, range, configuration_output, bounds_output)
}

/// The mark of a configuration block within limits.
pub fn mark_within(
    limits: Limits,
    job_block: &[u8],
    lowest: u8,
    highest: u8,
    configuration_block: &[u8],
    output: &mut [u8],
) -> Result<bool, Refusal> {
    let (jobs, range) = jobs_and_range_within(limits, job_block, lowest, highest)?;
    write_mark(&jobs, range, configuration_block, output)
}

/// Entry 14: the gate's planner.
pub fn gate_plan(
    job_block: &[u8],
    lowest: u8,
    highest: u8,
    configuration_output: &mut [u8],
    bounds_output: &mut [u8],
) -> Result<(u8, u16), Refusal> {
    plan_within(
        Limits::GATE,
        job_block,
        lowest,
        highest,
        configuration_output,
        bounds_output,
    )
}

/// Entry 15: the gate's marker.
pub fn gate_mark(
    job_block: &[u8],
    lowest: u8,
    highest: u8,
    configuration_block: &[u8],
    output: &mut [u8],
) -> Result<bool, Refusal> {
    mark_within(
        Limits::GATE,
        job_block,
        lowest,
        highest,
        configuration_block,
        output,
    )
}
