//! How many of the stored cases tell the bounds from those by other readings of the papers.

use reference::configuration::{Setting, NOT_PLACED, ROUND_ROBIN};
use reference::generation::long_deadlines::finish_by_recurrence;
use reference::generation::situations::two_bounds;
use reference::jobs::Job;
use reference::response_time::{
    interference, jobs_above, layer_demand, lesser_bound, neighbours, run_of_job,
};

use crate::common::bound_instance_by_instance;
use crate::common::readings::{bound_with_delays, Reading, READINGS_OF_DELAYS};
use crate::{answered_bounds, stored};

/// The response of a job, its deadline being up to its period, when sums are kept in two bytes; 0
/// if it is above the deadline.
fn response_in_two_bytes(layer_demand: u64, above: &[Job], job: &Job) -> u16 {
    let demand = |time: u16| {
        above.iter().fold(layer_demand as u16, |sum, job| {
            sum.wrapping_add(interference(job, u64::from(time)) as u16)
        })
    };
    let delay = u16::from(job.delay);
    (1..=job.deadline.saturating_sub(delay))
        .find(|time| demand(*time) == *time)
        .map_or(0, |time| time + delay)
}

/// The bound of a placed job, whose deadline is up to its period, when sums are kept in two bytes.
fn bound_in_two_bytes(jobs: &[Job], settings: &[Setting], index: usize) -> u16 {
    let job = &jobs[index];
    let own_work = u64::from(job.cost);
    let mut above = jobs_above(jobs, settings, index);
    let layer_demand = layer_demand(settings, index, own_work);
    let first = response_in_two_bytes(layer_demand, &above, job);
    if settings[index].policy != ROUND_ROBIN {
        return first;
    }
    above.extend(neighbours(jobs, settings, index));
    lesser_bound(first, response_in_two_bytes(own_work, &above, job))
}

/// In how many of the stored cases that give bounds for a configuration some job that is chosen has
/// another bound than by a way that is not the right one.
fn cases_that_tell(is_chosen: fn(&Job, &Setting) -> bool, bound_otherwise: Reading) -> usize {
    let answers = stored().iter().filter_map(answered_bounds);
    let differing = answers.filter(|(jobs, settings, bounds)| {
        (0..jobs.len()).any(|index| {
            is_chosen(&jobs[index], &settings[index])
                && bound_otherwise(jobs, settings, index) != bounds[index]
        })
    });
    differing.count()
}

#[test]
fn some_bounds_differ_if_sums_are_kept_in_two_bytes() {
    let is_chosen =
        |job: &Job, setting: &Setting| setting.policy != NOT_PLACED && job.deadline <= job.period;
    let differing = cases_that_tell(is_chosen, bound_in_two_bytes);
    assert!(differing >= 30, "{differing} cases");
}

/// The second bound of a policy 2 job if the cycles of its layer's others counted in it.
fn second_bound_with_cycles(jobs: &[Job], settings: &[Setting], index: usize) -> u16 {
    let mut above = jobs_above(jobs, settings, index);
    above.extend(neighbours(jobs, settings, index));
    let run = run_of_job(
        &jobs[index],
        |own_work| layer_demand(settings, index, own_work),
        |demand, earliest, latest| finish_by_recurrence(demand, &above, earliest, latest),
    );
    run.bound()
}

#[test]
fn some_bounds_differ_by_other_readings_of_the_two_bounds() {
    let readings: [(&str, Reading); 5] = [
        ("the first alone", |jobs, settings, index| {
            two_bounds(jobs, settings, index)[0]
        }),
        ("the second alone", |jobs, settings, index| {
            two_bounds(jobs, settings, index)[1]
        }),
        ("a bound of 0 as the lesser", |jobs, settings, index| {
            let [first, second] = two_bounds(jobs, settings, index);
            first.min(second)
        }),
        ("cycles in the second too", |jobs, settings, index| {
            let [first, _] = two_bounds(jobs, settings, index);
            lesser_bound(first, second_bound_with_cycles(jobs, settings, index))
        }),
        ("instance by instance", bound_instance_by_instance),
    ];
    for (name, reading) in readings {
        let is_chosen = |_: &Job, setting: &Setting| setting.policy == ROUND_ROBIN;
        let differing = cases_that_tell(is_chosen, reading);
        assert!(differing >= 30, "{name}: {differing} cases");
    }
}

#[test]
fn some_bounds_differ_by_other_readings_of_the_delays() {
    let is_chosen = |_: &Job, setting: &Setting| setting.policy != NOT_PLACED;
    assert_eq!(cases_that_tell(is_chosen, bound_with_delays), 0);
    for (name, least, reading) in READINGS_OF_DELAYS {
        let differing = cases_that_tell(is_chosen, reading);
        assert!(differing >= least, "{name}: {differing} cases");
    }
}
