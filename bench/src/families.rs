//! Families of lists with deadlines within the periods that are heavy for a planner, and changes of a
//! list.

use crate::lists::{give_ids, job};
use crate::random::Random;
use crate::same::job::{Job, LONGEST_DEADLINE, LONGEST_DELAY, LONGEST_PERIOD};
use crate::same::MOST_JOBS;

/// A family: its name, and a list of it.
pub type Family = (&'static str, fn(&mut Random) -> Vec<Job>);

/// The families.
pub const FAMILIES: [Family; 6] = [
    ("two (1,2,2), six (1,60000,60000)", two_short),
    ("full above", full_above),
    ("nearly full above", nearly_full_above),
    ("nearly served layers", nearly_served),
    ("equal long jobs", equal_long),
    ("unit costs above", unit_costs_above),
];

/// A job whose deadline is its period.
fn implicit(cost: u16, period: u16) -> Job {
    job(f64::from(cost), f64::from(period), |_, period| period)
}

/// Fills a list up with long jobs that cost no more than some number.
fn with_long_jobs(random: &mut Random, mut jobs: Vec<Job>, most: f64) -> Vec<Job> {
    while jobs.len() < MOST_JOBS {
        jobs.push(implicit(random.real(1.0, most) as u16, LONGEST_PERIOD));
    }
    give_ids(&mut jobs);
    jobs
}

/// Two jobs (1, 2, 2) with six jobs (1, 60000, 60000).
fn two_short(random: &mut Random) -> Vec<Job> {
    with_long_jobs(random, vec![implicit(1, 2); 2], 1.0)
}

/// Short jobs that together take the whole processor, with long ones of small cost.
fn full_above(random: &mut Random) -> Vec<Job> {
    let short: &[(u16, u16)] = random.choose(&[
        &[(1, 2), (1, 2)],
        &[(1, 3), (1, 3), (1, 3)],
        &[(1, 2), (1, 4), (1, 4)],
        &[(1, 2), (1, 3), (1, 6)],
    ]);
    let jobs = short
        .iter()
        .map(|(cost, period)| implicit(*cost, *period))
        .collect();
    with_long_jobs(random, jobs, 3.0)
}

/// Jobs of periods up to some number that together take all of the processor but a small part.
pub fn nearly_full(random: &mut Random, most: f64) -> Vec<Job> {
    let count = random.between(2, 5);
    let mut jobs = Vec::new();
    let mut share = 1.0 - random.scaled(1e-4, 0.1);
    for index in 0..count {
        let period = random.scaled(4.0, most).floor();
        let part = if index + 1 == count {
            1.0
        } else {
            random.real(0.2, 0.8)
        };
        let short = implicit((period * share * part) as u16, period as u16);
        share -= f64::from(short.cost) / f64::from(short.period);
        share = share.max(0.0);
        jobs.push(short);
    }
    jobs
}

/// Such jobs with long ones.
fn nearly_full_above(random: &mut Random) -> Vec<Job> {
    let jobs = nearly_full(random, 20_000.0);
    let most = random.scaled(1.0, 3_000.0);
    with_long_jobs(random, jobs, most)
}

/// Jobs of similar costs whose deadlines are a little short for sharing a level.
fn nearly_served(random: &mut Random) -> Vec<Job> {
    let cost = random.scaled(10.0, 3_000.0);
    let mut jobs: Vec<Job> = (0..MOST_JOBS)
        .map(|_| {
            let cost = cost * random.real(0.8, 1.25);
            let deadline = cost * random.real(2.0, 9.0);
            let period = deadline * random.scaled(1.0, 8.0);
            job(cost, period, |cost, period| {
                (deadline as u16).clamp(cost, period)
            })
        })
        .collect();
    give_ids(&mut jobs);
    jobs
}

/// One or two short jobs that take nearly the whole processor, with equal long jobs that are served
/// one at a time but not together.
fn equal_long(random: &mut Random) -> Vec<Job> {
    let period = random.ticks(10, 2_000);
    let jobs = vec![implicit(period - random.ticks(1, period / 8 + 1), period)];
    let free = f64::from(LONGEST_PERIOD) * (1.0 - f64::from(jobs[0].cost) / f64::from(period));
    let cost = (free * random.real(0.02, 0.3)) as u16;
    let mut jobs = jobs;
    while jobs.len() < MOST_JOBS {
        jobs.push(implicit(cost, LONGEST_PERIOD));
    }
    give_ids(&mut jobs);
    jobs
}

/// Jobs of cost 1 that take all of the processor but a very small part, and that part.
pub fn unit_costs(random: &mut Random) -> (Vec<Job>, f64) {
    let mut free = 1.0;
    let mut jobs = Vec::new();
    for _ in 0..random.between(2, 5) {
        let period = (1.0f64 / free).floor() + 1.0 + random.choose(&[0.0, 0.0, 0.0, 1.0, 2.0]);
        if period < f64::from(LONGEST_PERIOD) {
            jobs.push(implicit(1, period as u16));
            free -= 1.0 / period;
        }
    }
    (jobs, free)
}

/// Such jobs with long ones that together need about the rest of the processor.
fn unit_costs_above(random: &mut Random) -> Vec<Job> {
    let (mut jobs, free) = unit_costs(random);
    let need = f64::from(LONGEST_PERIOD) * free * random.real(0.7, 1.5);
    let long = (MOST_JOBS - jobs.len()) as f64;
    while jobs.len() < MOST_JOBS {
        let cost = need / long * random.real(0.8, 1.25);
        jobs.push(implicit(cost.clamp(1.0, 60_000.0) as u16, LONGEST_PERIOD));
    }
    give_ids(&mut jobs);
    jobs
}

/// What the jobs of a changed list may have: deadlines within the periods, deadlines past the
/// periods, or these and delays.
#[derive(Clone, Copy)]
pub enum Changes {
    WithinPeriod,
    PastPeriod,
    Delays,
}

impl Changes {
    /// The longest deadline of a job with a period.
    fn longest_deadline(self, period: u16) -> u16 {
        match self {
            Changes::WithinPeriod => period,
            Changes::PastPeriod | Changes::Delays => LONGEST_DEADLINE,
        }
    }

    /// The last of the ways in which `mutated` changes a list. The way that changes a delay comes
    /// after the others, so that searches without delays do not depend on it.
    fn last_way(self) -> usize {
        match self {
            Changes::WithinPeriod | Changes::PastPeriod => 4,
            Changes::Delays => 5,
        }
    }
}

/// Brings a number into limits after a change of it.
fn changed(random: &mut Random, number: u16, least: u16, most: u16) -> u16 {
    let number = f64::from(number);
    let next = match random.between(0, 4) {
        0 => number + 1.0,
        1 => number - 1.0,
        2 => number * random.real(0.5, 2.0),
        3 => number * random.real(0.95, 1.05),
        _ => random.scaled(f64::from(least), f64::from(most) + 0.5),
    };
    next.clamp(f64::from(least), f64::from(most)) as u16
}

/// A delay after a change of it, made on the number that is one more, since `changed` is for
/// numbers from 1 on.
fn changed_delay(random: &mut Random, delay: u8) -> u8 {
    let most = u16::from(LONGEST_DELAY) + 1;
    let next = changed(random, u16::from(delay) + 1, 1, most);
    (next - 1) as u8
}

/// A list that differs in one or a few numbers.
pub fn mutated(random: &mut Random, list: &[Job], changes: Changes) -> Vec<Job> {
    let mut jobs = list.to_vec();
    for _ in 0..random.between(1, 3) {
        let place = random.between(0, jobs.len() - 1);
        let mut job = jobs[place];
        match random.between(0, changes.last_way()) {
            0 => job.cost = changed(random, job.cost, 1, job.deadline.min(job.period)),
            1 => {
                let longest = changes.longest_deadline(job.period);
                job.deadline = changed(random, job.deadline, job.cost, longest);
            }
            2 => {
                job.period = changed(random, job.period, job.cost, LONGEST_PERIOD);
                job.deadline = job.deadline.min(changes.longest_deadline(job.period));
            }
            3 => job = jobs[random.between(0, jobs.len() - 1)],
            4 => {
                jobs[place] = jobs[0];
                jobs[0] = job;
                continue;
            }
            _ => job.delay = changed_delay(random, job.delay),
        }
        jobs[place] = job;
    }
    give_ids(&mut jobs);
    jobs
}
