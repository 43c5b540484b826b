//! Families of lists with deadlines past the periods that are heavy for a planner: jobs that together
//! need about the whole processor, so that many instances run on into the next one.

use crate::families::{nearly_full, unit_costs, Family, FAMILIES};
use crate::lists::{give_ids, job, late};
use crate::random::Random;
use crate::same::job::{Job, LONGEST_DEADLINE, LONGEST_PERIOD};
use crate::same::MOST_JOBS;

/// The families.
pub const LATE_FAMILIES: [Family; 5] = [
    ("unit costs above", late_below_unit_costs),
    ("nearly full above", late_below_nearly_full),
    ("nearly served layers", late_nearly_served),
    ("long job first", late_behind_long),
    ("heavy families made late", late_heavy),
];

/// The part of the processor that jobs leave free; a very small one where they leave none.
fn free_part(jobs: &[Job]) -> f64 {
    let share = |job: &Job| f64::from(job.cost) / f64::from(job.period);
    let taken: f64 = jobs.iter().map(share).sum();
    (1.0 - taken).max(1e-5)
}

/// A job with the longest deadline.
fn latest(cost: f64, period: f64) -> Job {
    job(cost, period, |_, _| LONGEST_DEADLINE)
}

/// Fills a list up with jobs of similar periods and the longest deadline that together need about
/// the part that is free.
pub fn with_late_jobs(random: &mut Random, mut jobs: Vec<Job>) -> Vec<Job> {
    let count = MOST_JOBS - jobs.len();
    let share = free_part(&jobs) / count as f64;
    let period = random.scaled(500.0, f64::from(LONGEST_PERIOD));
    for _ in 0..count {
        let period = period * random.real(0.8, 1.25);
        let cost = period * share * random.real(0.5, 1.5);
        jobs.push(latest(cost, period));
    }
    give_ids(&mut jobs);
    jobs
}

/// Jobs of cost 1 that take nearly the whole processor: the iteration takes its smallest steps.
fn late_below_unit_costs(random: &mut Random) -> Vec<Job> {
    let (jobs, _) = unit_costs(random);
    with_late_jobs(random, jobs)
}

/// Jobs of any costs that take nearly the whole processor.
fn late_below_nearly_full(random: &mut Random) -> Vec<Job> {
    let jobs = nearly_full(random, 500.0);
    with_late_jobs(random, jobs)
}

/// Jobs of similar costs that share a level in the long run or just fail to.
fn late_nearly_served(random: &mut Random) -> Vec<Job> {
    let cost = random.scaled(3.0, 3_000.0);
    let periods = MOST_JOBS as f64 / random.real(0.95, 1.02);
    let mut jobs: Vec<Job> = (0..MOST_JOBS)
        .map(|_| {
            let cost = cost * random.real(0.8, 1.25);
            let period = cost * periods * random.real(0.8, 1.25);
            late(
                job(cost, period, |_, period| period),
                random.scaled(1.0, 64.0),
            )
        })
        .collect();
    give_ids(&mut jobs);
    jobs
}

/// A long job that delays the others, which then have many instances to catch up with.
fn late_behind_long(random: &mut Random) -> Vec<Job> {
    let period = random.scaled(100.0, f64::from(LONGEST_PERIOD));
    let mut jobs = vec![latest(period * random.real(0.1, 0.9), period)];
    while jobs.len() < MOST_JOBS {
        let share = free_part(&jobs) * random.real(0.1, 0.6);
        let period = random.scaled(2.0, f64::from(LONGEST_PERIOD));
        jobs.push(late(
            job(period * share, period, |_, period| period),
            random.scaled(1.0, 64.0),
        ));
    }
    give_ids(&mut jobs);
    jobs
}

/// Lists of the families with deadlines within the periods, half of the jobs with the longest
/// deadline and some of their periods shortened.
fn late_heavy(random: &mut Random) -> Vec<Job> {
    let (_, list) = random.choose(&FAMILIES);
    let mut jobs = list(random);
    for job in jobs.iter_mut() {
        if random.once_in(2) {
            let period = f64::from(job.period) * random.choose(&[1.0, 0.5, 0.25]);
            *job = latest(f64::from(job.cost), period);
        }
    }
    give_ids(&mut jobs);
    jobs
}
