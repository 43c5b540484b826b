//! Lists with deadlines above periods, and the means to set a job's times by the run of its
//! instances.

use crate::configuration::Setting;
use crate::generation::configured::Configured;
use crate::generation::layers::{deadline_from, period_from, LayerRule, NO_DELAY};
use crate::generation::random::Random;
use crate::jobs::{Job, LONGEST_DEADLINE, LONGEST_PERIOD};
use crate::response_time::{
    first_run, jobs_above, layer_demand, second_run, total_interference, End, Run, INSTANCES,
};

/// Whether a list has a deadline above its period.
pub fn has_long_deadline(jobs: &[Job]) -> bool {
    jobs.iter().any(|job| job.deadline > job.period)
}

/// A deadline above a period, unless the period is the longest: one tick more, up to twice the
/// period, a few periods, as many as a run has instances, or the longest.
pub fn deadline_beyond(random: &mut Random, period: u16) -> u16 {
    let period = usize::from(period);
    let deadline = match random.below(6) {
        0 => period + 1,
        1 | 2 => period + random.between(1, period),
        3 => period * random.between(2, 5),
        4 => period * random.between(5, INSTANCES as usize + 2),
        _ => usize::from(LONGEST_DEADLINE),
    };
    deadline.min(usize::from(LONGEST_DEADLINE)) as u16
}

/// The list with a deadline above the period for one job or more: the deadline is raised, or the
/// period is lowered, sometimes down to the cost.
pub fn with_long_deadlines(random: &mut Random, mut jobs: Vec<Job>) -> Vec<Job> {
    let always = random.below(jobs.len());
    for (index, job) in jobs.iter_mut().enumerate() {
        if index != always && random.once_in(2) {
            continue;
        }
        match random.below(8) {
            0 => job.period = job.cost,
            1 | 2 => job.period = random.ticks(job.cost, job.deadline),
            _ => {}
        }
        if job.deadline <= job.period {
            job.deadline = deadline_beyond(random, job.period);
        }
    }
    jobs
}

/// The least time from an earliest to a latest one that equals a layer's demand plus the
/// interference, found by the usual recurrence: the demand at a time is the next time, until both
/// are the same. No time below the earliest equals it. It serves to draw and to count cases;
/// answers come from the search that tries every time.
pub fn finish_by_recurrence(
    layer_demand: u64,
    above: &[Job],
    earliest: u64,
    latest: u64,
) -> Option<u64> {
    let mut time = earliest;
    while time <= latest {
        let next = layer_demand + total_interference(above, time);
        if next == time {
            return Some(time);
        }
        time = next;
    }
    None
}

/// One of the two runs of a placed job in a configuration.
pub type RunOfJob = fn(&[Job], &[Setting], usize) -> Run;

/// The run that settles a placed job's first bound, with finishes by the recurrence.
pub fn first_run_by_recurrence(jobs: &[Job], settings: &[Setting], index: usize) -> Run {
    first_run(jobs, settings, index, finish_by_recurrence)
}

/// The run that settles a policy 2 job's second bound, with finishes by the recurrence.
pub fn second_run_by_recurrence(jobs: &[Job], settings: &[Setting], index: usize) -> Run {
    second_run(jobs, settings, index, finish_by_recurrence)
}

/// Whether the instance after the last one that a first run may reach would close it.
pub fn closes_after_last(list: &Configured, index: usize) -> bool {
    let above = jobs_above(&list.jobs, &list.settings, index);
    let job = &list.jobs[index];
    let own_work = (INSTANCES + 1) * u64::from(job.cost);
    let demand = layer_demand(&list.settings, index, own_work);
    let latest = (INSTANCES + 1) * u64::from(job.period);
    let latest = latest.saturating_sub(u64::from(job.delay));
    finish_by_recurrence(demand, &above, 1, latest).is_some()
}

/// Gives a job a period and the longest deadline, and answers its first run.
pub fn set_period(list: &mut Configured, index: usize, period: u16) -> Run {
    list.jobs[index].period = period;
    list.jobs[index].deadline = LONGEST_DEADLINE;
    first_run_by_recurrence(&list.jobs, &list.settings, index)
}

/// The least period with which one of a job's runs closes by an instance, its deadline being the
/// longest. With a longer period each response is smaller and no run closes later.
pub fn least_period(
    list: &mut Configured,
    index: usize,
    instance: u64,
    run_of_job: RunOfJob,
) -> Option<u16> {
    let mut closes_with = |period| {
        list.jobs[index].period = period;
        list.jobs[index].deadline = LONGEST_DEADLINE;
        let run = run_of_job(&list.jobs, &list.settings, index);
        run.end == End::Closed && run.last_instance <= instance
    };
    if !closes_with(LONGEST_PERIOD) {
        return None;
    }
    let (mut least, mut most) = (1, LONGEST_PERIOD);
    while least < most {
        let middle = least + (most - least) / 2;
        if closes_with(middle) {
            most = middle;
        } else {
            least = middle + 1;
        }
    }
    Some(most)
}

/// Layers without delays, most of whose deadlines may be above the periods.
pub const ABOVE_PERIODS: LayerRule = LayerRule {
    delay: |_| NO_DELAY,
    times: times_above_period,
};

/// The period is the least with which the first run closes by some instance, or a longer one; the
/// deadline is the first bound, a little more, or above the period. False if the first run does not
/// close.
fn times_above_period(random: &mut Random, list: &mut Configured, index: usize) -> bool {
    let instance = random.choose(&[0, 0, 1, 2, 6]);
    let Some(least) = least_period(list, index, instance, first_run_by_recurrence) else {
        return false;
    };
    let period = period_from(random, list, index, least);
    let bound = set_period(list, index, period).bound();
    let close = deadline_from(random, bound);
    let deadline = if random.once_in(4) {
        deadline_beyond(random, period).max(bound)
    } else {
        close
    };
    list.jobs[index].deadline = deadline.min(LONGEST_DEADLINE);
    true
}
