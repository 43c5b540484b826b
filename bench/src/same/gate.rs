//! The planner and the marker at the start gate.

use crate::same::job::{question, Jobs, Range};
use crate::same::marker::mark_hand_in;
use crate::same::planner::{Method, Raising};
use crate::same::response::Shortcuts;
use crate::same::{word, Refusal};

/// The most jobs that the start gate takes.
pub const GATE_JOBS: usize = 4;

/// The highest quantum that the start gate takes.
pub const GATE_QUANTUM: u8 = 16;

/// The jobs of a block and a range of quanta, within the limits of the start gate.
fn question_within(block: &[u8], low: u8, high: u8) -> Result<(Jobs, Range), Refusal> {
    let (jobs, range) = question(block, low, high)?;
    if GATE_JOBS < jobs.count || GATE_QUANTUM < high {
        return Err(15);
    }
    Ok((jobs, range))
}

/// Plans a job block at the start gate.
pub fn gate_plan(
    block: &[u8],
    low: u8,
    high: u8,
    configuration: &mut [u8],
    bounds: &mut [u8],
) -> u32 {
    let planned = question_within(block, low, high).and_then(|(jobs, range)| {
        Method(Shortcuts, Raising).put_plan(&jobs, range, configuration, bounds)
    });
    word(planned)
}

/// Marks a configuration block at the start gate.
pub fn gate_mark(block: &[u8], low: u8, high: u8, configuration: &[u8], output: &mut [u8]) -> u32 {
    let marked = question_within(block, low, high)
        .and_then(|(jobs, range)| mark_hand_in(&jobs, range, configuration, output));
    word(marked)
}
