//! The bounds of a configuration, and the marker.

use crate::same::job::{question, Jobs, Range};
use crate::same::response::{Shortcuts, Workload};
use crate::same::setting::{read_settings, Setting, Settings, NOT_PLACED};
use crate::same::{word, Refusal, MOST_JOBS};

/// The size of a bound, in bytes.
pub const BOUND_SIZE: usize = 2;

/// The bounds of a list of jobs, 0 past the last one.
pub type Bounds = [u16; MOST_JOBS];

/// Writes bounds to the first bytes of an output.
pub fn write_bounds(bounds: &[u16], output: &mut [u8]) {
    for (bytes, bound) in output.chunks_exact_mut(BOUND_SIZE).zip(bounds) {
        bytes.copy_from_slice(&bound.to_be_bytes());
    }
}

/// The set of the settings whose level passes a test.
fn level_set(settings: &[Setting], test: impl Fn(u8) -> bool) -> u8 {
    let mut set = 0;
    for (place, setting) in settings.iter().enumerate() {
        if test(setting.level) {
            set |= 1 << place;
        }
    }
    set
}

/// The layer of the job at a place, and the set above it; none where the job is not placed.
pub fn layer_and_above(settings: &[Setting], place: usize) -> Option<(u8, u8)> {
    let own = settings[place].level;
    if own == 0 {
        return None;
    }
    let layer = level_set(settings, |level| level == own);
    let above = level_set(settings, |level| level < own);
    Some((layer, above))
}

/// The bound of the job at a place.
fn bound_of(
    workload: &Workload<Shortcuts>,
    settings: &Settings,
    count: usize,
    place: usize,
) -> u16 {
    let Some((layer, above)) = layer_and_above(&settings[..count], place) else {
        return 0;
    };
    let quanta = settings.map(|setting| setting.quantum);
    workload.bound(&quanta, layer, above, place)
}

fn bounds_of(jobs: &Jobs, settings: &Settings) -> Bounds {
    let workload = Workload::plain(jobs.table, Shortcuts);
    let mut bounds = [0; MOST_JOBS];
    for (place, bound) in bounds[..jobs.count].iter_mut().enumerate() {
        *bound = bound_of(&workload, settings, jobs.count, place);
    }
    bounds
}

/// The jobs and the settings of two blocks.
pub fn read(
    block: &[u8],
    low: u8,
    high: u8,
    configuration: &[u8],
) -> Result<(Jobs, Settings), Refusal> {
    let (jobs, range) = question(block, low, high)?;
    let settings = read_settings(&jobs, range, configuration)?;
    Ok((jobs, settings))
}

/// Writes the bounds of a configuration, and gives them.
fn put_bounds(jobs: &Jobs, settings: &Settings, output: &mut [u8]) -> Result<Bounds, Refusal> {
    if output.len() < BOUND_SIZE * jobs.count {
        return Err(12);
    }
    let bounds = bounds_of(jobs, settings);
    write_bounds(&bounds[..jobs.count], output);
    Ok(bounds)
}

/// The bounds of a configuration block, full or not.
pub fn bounds(block: &[u8], low: u8, high: u8, configuration: &[u8], output: &mut [u8]) -> u32 {
    let done = read(block, low, high, configuration)
        .and_then(|(jobs, settings)| put_bounds(&jobs, &settings, output));
    word(done.map(|_| 0))
}

fn mark_read(jobs: &Jobs, settings: &Settings, output: &mut [u8]) -> Result<u32, Refusal> {
    let mut listed = settings[..jobs.count].iter();
    if listed.any(|setting| setting.policy == NOT_PLACED) {
        return Err(11);
    }
    let bounds = put_bounds(jobs, settings, output)?;
    Ok(u32::from(!bounds[..jobs.count].contains(&0)))
}

/// Marks a configuration block for jobs and a range of quanta.
pub fn mark_hand_in(
    jobs: &Jobs,
    range: Range,
    configuration: &[u8],
    output: &mut [u8],
) -> Result<u32, Refusal> {
    let settings = read_settings(jobs, range, configuration)?;
    mark_read(jobs, &settings, output)
}

/// Marks a configuration block.
pub fn mark(block: &[u8], low: u8, high: u8, configuration: &[u8], output: &mut [u8]) -> u32 {
    let marked = question(block, low, high)
        .and_then(|(jobs, range)| mark_hand_in(&jobs, range, configuration, output));
    word(marked)
}
