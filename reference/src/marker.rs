//! The marker: refusal 11, and whether a configuration passes.

use crate::configuration::{jobs_and_range, settings_of_block, QuantumRange, Setting, NOT_PLACED};
use crate::jobs::Job;
use crate::refusal::{judge_output, Refusal};
use crate::response_time::{bounds_of_settings, put_bounds, BOUND_BYTES};

/// "A configuration is full if each job is placed."
pub fn is_full(settings: &[Setting]) -> bool {
    settings.iter().all(|setting| setting.policy != NOT_PLACED)
}

/// "It passes if it is full and no bound is 0."
pub fn passes(settings: &[Setting], bounds: &[u16]) -> bool {
    is_full(settings) && bounds.iter().all(|bound| *bound != 0)
}

/// Refusal 11: "The marker finds a job not placed."
pub fn judge_full(settings: &[Setting]) -> Result<(), Refusal> {
    if !is_full(settings) {
        return Err(Refusal::JobNotPlaced);
    }
    Ok(())
}

/// Marks a configuration block for accepted jobs and range: "The marker writes 2n bytes of bounds
/// and answers whether the configuration passes."
pub fn write_mark(
    jobs: &[Job],
    range: QuantumRange,
    configuration_block: &[u8],
    output: &mut [u8],
) -> Result<bool, Refusal> {
    let settings = settings_of_block(jobs, range, configuration_block)?;
    judge_full(&settings)?;
    judge_output(output, BOUND_BYTES * jobs.len())?;
    let bounds = bounds_of_settings(jobs, &settings);
    put_bounds(&bounds, output);
    Ok(passes(&settings, &bounds))
}

/// Entry 6: the mark of a configuration block. "If the job block is refused, the marker gives that
/// number before it reads the configuration."
pub fn mark(
    job_block: &[u8],
    lowest: u8,
    highest: u8,
    configuration_block: &[u8],
    output: &mut [u8],
) -> Result<bool, Refusal> {
    let (jobs, range) = jobs_and_range(job_block, lowest, highest)?;
    write_mark(&jobs, range, configuration_block, output)
}
