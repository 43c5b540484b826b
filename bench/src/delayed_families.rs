//! Families of lists with delays that are heavy for a planner.

use crate::families::{nearly_full, unit_costs, Family, FAMILIES};
use crate::late_families::{with_late_jobs, LATE_FAMILIES};
use crate::lists::{delayed, give_ids, job};
use crate::random::Random;
use crate::same::job::{Job, LONGEST_DEADLINE, LONGEST_DELAY};
use crate::same::MOST_JOBS;

/// The families.
pub const DELAYED_FAMILIES: [Family; 6] = [
    ("heavy families delayed", delayed_heavy),
    ("late families delayed", delayed_late),
    ("delayed jobs above", below_delayed),
    ("delays near the deadlines", near_deadlines),
    ("delays near the periods", near_periods),
    ("delays of many periods", many_periods),
];

/// Gives delays to the jobs of a list: the longest to all, any to all, or the longest to those with
/// the shorter periods or to those with the longer ones alone.
fn give_delays(random: &mut Random, jobs: &mut [Job]) {
    let mut periods: Vec<u16> = jobs.iter().map(|job| job.period).collect();
    periods.sort_unstable();
    let median = periods[periods.len() / 2];
    let way = random.between(0, 3);
    for job in jobs {
        job.delay = match way {
            0 => LONGEST_DELAY,
            1 => random.ticks(0, u16::from(LONGEST_DELAY)) as u8,
            2 if job.period < median => LONGEST_DELAY,
            3 if median <= job.period => LONGEST_DELAY,
            _ => 0,
        };
    }
}

/// A list of one of some families with delays.
fn delayed_list(random: &mut Random, families: &[Family]) -> Vec<Job> {
    let (_, list) = random.choose(families);
    let mut jobs = list(random);
    give_delays(random, &mut jobs);
    jobs
}

/// Lists of the families with deadlines within the periods.
fn delayed_heavy(random: &mut Random) -> Vec<Job> {
    delayed_list(random, &FAMILIES)
}

/// Lists of the families with deadlines past the periods.
fn delayed_late(random: &mut Random) -> Vec<Job> {
    delayed_list(random, &LATE_FAMILIES)
}

/// Jobs of short periods and the longest delay that take nearly the whole processor, with late jobs
/// that need about the rest.
fn below_delayed(random: &mut Random) -> Vec<Job> {
    let mut jobs = if random.once_in(2) {
        unit_costs(random).0
    } else {
        nearly_full(random, f64::from(LONGEST_DELAY))
    };
    for job in &mut jobs {
        job.delay = LONGEST_DELAY;
    }
    with_late_jobs(random, jobs)
}

/// Jobs whose delays leave little of their deadlines: what they leave is a little short for sharing
/// a level.
fn near_deadlines(random: &mut Random) -> Vec<Job> {
    let cost = random.scaled(2.0, 60.0);
    let mut jobs: Vec<Job> = (0..MOST_JOBS)
        .map(|_| {
            let delay = random.ticks(64, u16::from(LONGEST_DELAY));
            let cost = cost * random.real(0.8, 1.25);
            let left = cost * random.real(2.0, 9.0);
            let period = (left + f64::from(delay)) * random.scaled(1.0, 8.0);
            delayed(job(cost, period, |_, _| left as u16 + delay), delay)
        })
        .collect();
    give_ids(&mut jobs);
    jobs
}

/// Jobs of similar costs and the longest deadline that together need about the whole processor,
/// with delays of some number of periods: the longer a delay, the more instances before one closes
/// the run.
fn open_runs(random: &mut Random, longest: f64, periods: (f64, f64)) -> Vec<Job> {
    let share = random.real(0.93, 1.02) / MOST_JOBS as f64;
    let cost = random.scaled(1.0, longest * share);
    let mut jobs: Vec<Job> = (0..MOST_JOBS)
        .map(|_| {
            let cost = (cost * random.real(0.8, 1.25)).max(1.0).floor();
            let period = cost / share * random.real(0.8, 1.25);
            let delay = period * random.scaled(periods.0, periods.1);
            delayed(job(cost, period, |_, _| LONGEST_DEADLINE), delay as u16)
        })
        .collect();
    give_ids(&mut jobs);
    jobs
}

/// Delays that leave little of the period.
fn near_periods(random: &mut Random) -> Vec<Job> {
    open_runs(random, 300.0, (0.8, 1.0))
}

/// Delays past the period.
fn many_periods(random: &mut Random) -> Vec<Job> {
    open_runs(random, 60.0, (1.0, 60.0))
}
