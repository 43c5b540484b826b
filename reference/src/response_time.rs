//! The response-time test: the demand on a job's instances, their finishes and responses, a job's
//! two bounds and the lesser of them, and the entry that writes bounds.
//!
//! Times and demands are eight-byte numbers. A time is at most 64 * 60,000 and so is an instance's
//! own work. A layer's demand is at most that work times 1 + 7 * 64, and a job above adds at most
//! t + J + T, as its C is at most its T.

use crate::configuration::{jobs_and_settings, Setting, FIFO, NOT_PLACED, ROUND_ROBIN};
use crate::jobs::{two_byte_number, Job};
use crate::refusal::{judge_output, Refusal};

/// "Bound, 2 bytes".
pub const BOUND_BYTES: usize = 2;

/// "instance 63 is reached": the instances are those from 0 to 63.
pub const INSTANCES: u64 = 64;

/// How the run of a job's instances ends.
#[derive(Clone, Copy, Debug, PartialEq, Eq)]
pub enum End {
    /// The last instance is the first whose "finish plus J is by (j+1)·T".
    Closed,
    /// Of the last instance, "a response exceeds D" or "a finish doesn't exist".
    OverDeadline,
    /// "instance 63 is reached", and it "counts as running past 64·T when its finish plus J does".
    StillRunning,
}

/// A job's instances from 0 on, up to the one at which the bound is settled.
#[derive(Clone, Copy, Debug, PartialEq, Eq)]
pub struct Run {
    pub end: End,
    pub last_instance: u64,
    /// The latest finish found, 0 if instance 0 has none.
    pub finish: u64,
    /// The largest response found, and the first instance that has it with its finish.
    pub largest_response: u64,
    pub largest_instance: u64,
    pub largest_finish: u64,
}

impl Run {
    /// "The bound is the largest response up to the first instance that finishes by (j+1)·T. If a
    /// response exceeds D, a finish doesn't exist, or instance 63 is reached and still runs past
    /// 64·T, the bound is 0." By E4 "finish plus J" stands for the finish here. No response of a
    /// closed run exceeds D, so it fits in two bytes.
    pub fn bound(&self) -> u16 {
        match self.end {
            End::Closed => self.largest_response as u16,
            End::OverDeadline | End::StillRunning => 0,
        }
    }

    /// Notes the finish and the response of the last instance.
    fn note(&mut self, finish: u64, response: u64) {
        self.finish = finish;
        if response > self.largest_response {
            self.largest_response = response;
            self.largest_instance = self.last_instance;
            self.largest_finish = finish;
        }
    }
}

/// "the cycles, C divided by its quantum and rounded up, times the sum of the other quanta in its
/// layer", an instance having "own work (j+1)·C" in place of C, and "its cycles are taken of that
/// work": what a policy 2 job's neighbours add, which is the same at every time.
fn round_robin_share(own_work: u64, quantum: u8, other_quanta: u64) -> u64 {
    own_work.div_ceil(u64::from(quantum)) * other_quanta
}

/// "its own C", or own work, and the share of the others: the demand of a policy 2 job's layer.
pub fn round_robin_demand(own_work: u64, quantum: u8, other_quanta: u64) -> u64 {
    own_work + round_robin_share(own_work, quantum, other_quanta)
}

/// "t + J divided by its T, rounded up, as in equation (10) of source document 004", "times that
/// job's C". J and T are those of the job above.
pub fn interference(above: &Job, time: u64) -> u64 {
    let releases = (time + u64::from(above.delay)).div_ceil(u64::from(above.period));
    releases * u64::from(above.cost)
}

/// The interference of all jobs above.
pub fn total_interference(above: &[Job], time: u64) -> u64 {
    above.iter().map(|job| interference(job, time)).sum()
}

/// What the layer's others add to own work in the first bound: their cycles, and 0 for policy 1.
/// Delays play no part in it.
pub fn layer_share(settings: &[Setting], index: usize, own_work: u64) -> u64 {
    let own = &settings[index];
    if own.policy == FIFO {
        return 0;
    }
    let mut other_quanta = 0;
    for (other_index, other) in settings.iter().enumerate() {
        if other_index != index && other.level == own.level {
            other_quanta += u64::from(other.quantum);
        }
    }
    round_robin_share(own_work, own.quantum, other_quanta)
}

/// The demand of the job's own layer on own work.
pub fn layer_demand(settings: &[Setting], index: usize, own_work: u64) -> u64 {
    own_work + layer_share(settings, index, own_work)
}

/// The jobs above a placed job. "A job not placed counts as above every placed one": its level is
/// 0, so above is a smaller level.
pub fn jobs_above(jobs: &[Job], settings: &[Setting], index: usize) -> Vec<Job> {
    let mut above = Vec::new();
    for (job, setting) in jobs.iter().zip(settings) {
        if setting.level < settings[index].level {
            above.push(*job);
        }
    }
    above
}

/// The other jobs of a placed job's layer.
pub fn neighbours(jobs: &[Job], settings: &[Setting], index: usize) -> Vec<Job> {
    let mut neighbours = Vec::new();
    for (other_index, (job, setting)) in jobs.iter().zip(settings).enumerate() {
        if other_index != index && setting.level == settings[index].level {
            neighbours.push(*job);
        }
    }
    neighbours
}

/// The run of a job's instances. `layer_demand` answers the demand of the job's layer on own work.
/// `finish_between` answers, for such a demand, the least t from an earliest to a latest one that
/// equals it plus the interference.
///
/// The search for a finish stops at j·T + D - J, since a later finish makes the response exceed D,
/// and the bound is 0 then as it is if "a finish doesn't exist". If J exceeds j·T + D, no t is
/// tried.
///
/// The search starts at the finish of the instance before. Demand less t is not below 0 at t = 1
/// and falls by at most 1 from one t to the next, so before the least t that equals the demand it
/// is above 0. The demand of the later instance is larger at every t, so that no t up to the finish
/// of the instance before equals it.
pub fn run_of_job(
    job: &Job,
    layer_demand: impl Fn(u64) -> u64,
    mut finish_between: impl FnMut(u64, u64, u64) -> Option<u64>,
) -> Run {
    let (period, deadline) = (u64::from(job.period), u64::from(job.deadline));
    let delay = u64::from(job.delay);
    let mut run = Run {
        end: End::StillRunning,
        last_instance: 0,
        finish: 0,
        largest_response: 0,
        largest_instance: 0,
        largest_finish: 0,
    };
    for instance in 0..INSTANCES {
        run.last_instance = instance;
        let release = instance * period;
        let demand = layer_demand((instance + 1) * u64::from(job.cost));
        let earliest = run.finish.max(1);
        let latest = (release + deadline).saturating_sub(delay);
        let Some(finish) = finish_between(demand, earliest, latest) else {
            run.end = End::OverDeadline;
            return run;
        };
        // "Its response is that finish less j·T", and it gains J. The finish alone may be before
        // j·T; with J it is after, as the instance before has a smaller finish and is still open.
        run.note(finish, finish + delay - release);
        // "by (j+1)·T" is at that time or before it.
        if finish + delay <= release + period {
            run.end = End::Closed;
            return run;
        }
    }
    run
}

/// A way to find a finish: from a layer's demand and the jobs above, the least t from an earliest
/// to a latest one that equals the demand plus the interference.
pub type FindFinish = fn(u64, &[Job], u64, u64) -> Option<u64>;

/// "its finish is the least t that equals its demand", sought by trying every t.
pub fn finish_by_search(
    layer_demand: u64,
    above: &[Job],
    earliest: u64,
    latest: u64,
) -> Option<u64> {
    (earliest..=latest).find(|time| layer_demand + total_interference(above, *time) == *time)
}

/// The run of a job alone on its level, below these jobs.
pub fn run_alone(job: &Job, above: &[Job], find: FindFinish) -> Run {
    run_of_job(
        job,
        |own_work| own_work,
        |demand, earliest, latest| find(demand, above, earliest, latest),
    )
}

/// The run that settles a placed job's first bound: its layer's others take part by their quanta.
pub fn first_run(jobs: &[Job], settings: &[Setting], index: usize, find: FindFinish) -> Run {
    let above = jobs_above(jobs, settings, index);
    run_of_job(
        &jobs[index],
        |own_work| layer_demand(settings, index, own_work),
        |demand, earliest, latest| find(demand, &above, earliest, latest),
    )
}

/// The run that settles a policy 2 job's second bound, which "counts every other job of its layer
/// as if it were above", with its J as a job above has. Quanta play no part in it: the job is as if
/// alone on its level.
pub fn second_run(jobs: &[Job], settings: &[Setting], index: usize, find: FindFinish) -> Run {
    let mut above = jobs_above(jobs, settings, index);
    above.extend(neighbours(jobs, settings, index));
    run_alone(&jobs[index], &above, find)
}

/// The first bound of a job. A job not placed has none: 0.
pub fn first_bound(jobs: &[Job], settings: &[Setting], index: usize) -> u16 {
    if settings[index].policy == NOT_PLACED {
        return 0;
    }
    first_run(jobs, settings, index, finish_by_search).bound()
}

/// The second bound of a job. Only a policy 2 job has one; for others it is 0, so that it gives
/// way.
pub fn second_bound(jobs: &[Job], settings: &[Setting], index: usize) -> u16 {
    if settings[index].policy != ROUND_ROBIN {
        return 0;
    }
    second_run(jobs, settings, index, finish_by_search).bound()
}

/// "The lesser of the two is the bound, one that is 0 giving way to the other." Each of the two is
/// a whole bound, the largest response of its own run.
pub fn lesser_bound(first: u16, second: u16) -> u16 {
    match (first, second) {
        (0, other) | (other, 0) => other,
        _ => first.min(second),
    }
}

/// Which bound a search for a plan goes by.
#[derive(Clone, Copy, Debug, PartialEq, Eq)]
pub enum BoundRule {
    /// The first bound alone.
    First,
    /// The lesser of the two, which is the bound.
    Lesser,
}

/// The bound of a job by a rule.
pub fn bound_by(rule: BoundRule, jobs: &[Job], settings: &[Setting], index: usize) -> u16 {
    let first = first_bound(jobs, settings, index);
    match rule {
        BoundRule::First => first,
        BoundRule::Lesser => lesser_bound(first, second_bound(jobs, settings, index)),
    }
}

/// The bound of a job. A job not placed has bound 0.
pub fn bound(jobs: &[Job], settings: &[Setting], index: usize) -> u16 {
    bound_by(BoundRule::Lesser, jobs, settings, index)
}

/// "Bound, 2 bytes, one per job in job order; 0 means over the deadline, or not placed."
pub fn bounds_of_settings(jobs: &[Job], settings: &[Setting]) -> Vec<u16> {
    (0..jobs.len())
        .map(|index| bound(jobs, settings, index))
        .collect()
}

/// The bounds of all whole records of some bytes.
pub fn bounds_of_records(bytes: &[u8]) -> Vec<u16> {
    bytes
        .chunks_exact(BOUND_BYTES)
        .map(|record| two_byte_number(record[0], record[1]))
        .collect()
}

/// Writes bounds, high byte first, at the start of an output that is long enough.
pub fn put_bounds(bounds: &[u16], output: &mut [u8]) {
    for (record, bound) in output.chunks_exact_mut(BOUND_BYTES).zip(bounds) {
        record.copy_from_slice(&bound.to_be_bytes());
    }
}

/// Entry 5: writes the 2n bytes of bounds of a configuration, full or not.
pub fn bounds(
    job_block: &[u8],
    lowest: u8,
    highest: u8,
    configuration_block: &[u8],
    output: &mut [u8],
) -> Result<(), Refusal> {
    let (jobs, settings) = jobs_and_settings(job_block, lowest, highest, configuration_block)?;
    judge_output(output, BOUND_BYTES * jobs.len())?;
    put_bounds(&bounds_of_settings(&jobs, &settings), output);
    Ok(())
}
