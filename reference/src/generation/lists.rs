//! Job lists of several kinds, and quantum ranges.

use crate::configuration::{QuantumRange, LONGEST_QUANTUM};
use crate::generation::random::Random;
use crate::jobs::{Job, LONGEST_PERIOD};

/// Periods with many common divisors and periods with few.
const PERIODS: [u16; 14] = [4, 5, 6, 7, 8, 10, 11, 12, 15, 16, 20, 22, 24, 30];

/// The costs and periods of the worked exam lists of two and three jobs, whose deadlines are their
/// periods.
const WORKED_LISTS: [&[(u16, u16)]; 5] = [
    &[(6, 8), (5, 22)],
    &[(1, 4), (2, 6), (3, 12)],
    &[(6, 8), (5, 23)],
    &[(1, 1), (1, 1)],
    &[(6, 8), (5, 22), (1, 100)],
];

/// Factors that take a list of small times up to times of thousands of ticks.
pub const SCALES: [u16; 6] = [1, 1, 1, 7, 100, 1000];

/// A job without an id yet and without a delay.
pub fn job_of_times(cost: u16, period: u16, deadline: u16) -> Job {
    Job {
        id: 0,
        delay: 0,
        cost,
        period,
        deadline,
    }
}

/// Gives jobs ids that rise strictly: the smallest ids, the largest ids, or any ids.
pub fn give_ids(random: &mut Random, jobs: &mut [Job]) {
    let count = jobs.len();
    let ids = match random.below(4) {
        0 => (1..=count).collect(),
        1 => (256 - count..=255).collect(),
        _ => random
            .distinct(count, 255)
            .iter()
            .map(|number| number + 1)
            .collect::<Vec<usize>>(),
    };
    for (job, id) in jobs.iter_mut().zip(ids) {
        job.id = id as u8;
    }
}

/// A period from a least one on: the same, a little longer, some times as long, or the longest.
pub fn stretched(random: &mut Random, least: u16) -> u16 {
    let least = usize::from(least);
    let period = match random.below(6) {
        0 | 1 => least,
        2 => least + random.below(4),
        3 => least + random.below(least + 1),
        4 => least * random.between(2, 6),
        _ => least * random.between(4, 40),
    };
    period.min(usize::from(LONGEST_PERIOD)) as u16
}

/// Jobs whose costs together are no more than any deadline: each fits alone below all others.
pub fn light(random: &mut Random, count: usize) -> Vec<Job> {
    let most_cost = random.choose(&[1, 5, 40, 300, 7_000]);
    let costs: Vec<u16> = (0..count).map(|_| random.ticks(1, most_cost)).collect();
    let sum: u16 = costs.iter().sum();
    let mut jobs = Vec::new();
    for cost in costs {
        let most_deadline = sum.saturating_add(sum / 4 + 3).min(LONGEST_PERIOD);
        let deadline = random.ticks(sum, most_deadline);
        jobs.push(job_of_times(cost, stretched(random, deadline), deadline));
    }
    jobs
}

/// Jobs whose costs over their periods sum to about 1.
pub fn near_full(random: &mut Random, count: usize) -> Vec<Job> {
    let scale = random.choose(&SCALES);
    let weights: Vec<usize> = (0..count).map(|_| random.between(1, 6)).collect();
    let weight_sum: usize = weights.iter().sum();
    let percent = random.between(75, 103);
    let mut jobs = Vec::new();
    for weight in weights {
        let period = random.choose(&PERIODS) * random.choose(&[1, 2, 2]) * scale;
        let cost = usize::from(period) * weight * percent / (weight_sum * 100);
        let cost = cost.clamp(1, usize::from(period)) as u16;
        let deadline = if random.once_in(3) {
            random.ticks(cost, period)
        } else {
            period
        };
        jobs.push(job_of_times(cost, period, deadline));
    }
    jobs
}

/// Jobs with costs of tens of thousands of ticks, whose demands are far above 65,535. Some demands
/// are above 65,536 by no more than the deadline, which a sum kept in two bytes would take for a
/// bound.
pub fn heavy(random: &mut Random, count: usize) -> Vec<Job> {
    let least_cost = random.choose(&[1_000, 20_000, 33_000, 59_990]);
    let mut jobs = Vec::new();
    for _ in 0..count {
        let cost = random.ticks(least_cost, LONGEST_PERIOD);
        let deadline = random.ticks(cost, LONGEST_PERIOD);
        let period = random.ticks(deadline, LONGEST_PERIOD);
        if random.once_in(2) {
            jobs.push(job_of_times(cost, LONGEST_PERIOD, deadline));
        } else {
            jobs.push(job_of_times(cost, period, deadline));
        }
    }
    jobs
}

/// Two jobs without any slack, which neither wait for each other nor share a level, and other jobs
/// with long deadlines.
pub fn stuck(random: &mut Random, count: usize) -> Vec<Job> {
    let scale = random.choose(&SCALES);
    let mut jobs = Vec::new();
    for index in 0..count {
        let cost = random.ticks(1, 5) * scale;
        if index < 2 {
            jobs.push(job_of_times(cost, stretched(random, 4 * cost), cost));
        } else {
            let deadline = random.ticks(10 * scale, 50 * scale);
            jobs.push(job_of_times(cost, stretched(random, deadline), deadline));
        }
    }
    random.shuffle(&mut jobs);
    jobs
}

/// The jobs of one of the worked exam lists, their times multiplied by one factor and some then
/// one tick off, with further jobs of long deadlines.
pub fn worked(random: &mut Random, count: usize) -> Vec<Job> {
    let scale = random.choose(&[1, 1, 2, 5, 50]);
    let mut jobs: Vec<Job> = random
        .choose(&WORKED_LISTS)
        .iter()
        .map(|(cost, period)| job_of_times(cost * scale, period * scale, period * scale))
        .collect();
    if random.once_in(2) {
        let changed = random.below(jobs.len());
        jobs[changed].period += 1;
        jobs[changed].deadline += random.ticks(0, 1);
    }
    while jobs.len() < count {
        let deadline = random.ticks(50, 200) * scale;
        let cost = random.ticks(1, 2 * scale);
        jobs.push(job_of_times(cost, stretched(random, deadline), deadline));
    }
    jobs.truncate(count);
    if random.once_in(2) {
        random.shuffle(&mut jobs);
    }
    jobs
}

/// The same job again and again.
pub fn equal(random: &mut Random, count: usize) -> Vec<Job> {
    let cost = random.ticks(1, 6);
    let deadline = random.ticks(cost, cost * (count as u16 + 1));
    let period = stretched(random, deadline);
    vec![job_of_times(cost, period, deadline); count]
}

/// Jobs with any small times.
pub fn small(random: &mut Random, count: usize) -> Vec<Job> {
    let most = random.ticks(1, 40);
    let mut jobs = Vec::new();
    for _ in 0..count {
        let period = random.ticks(1, most);
        let deadline = random.ticks(1, period);
        jobs.push(job_of_times(random.ticks(1, deadline), period, deadline));
    }
    jobs
}

/// A quantum range: narrow ones, the widest, single quanta at both ends, or any.
pub fn range(random: &mut Random) -> QuantumRange {
    let (lowest, highest) = match random.below(10) {
        0..=2 => (1, 4),
        3 | 4 => (1, LONGEST_QUANTUM),
        5 => (1, random.byte(1, 3)),
        6 => (LONGEST_QUANTUM - random.byte(0, 3), LONGEST_QUANTUM),
        7 => (2, random.byte(2, 8)),
        _ => {
            let lowest = random.byte(1, LONGEST_QUANTUM);
            (lowest, random.byte(lowest, LONGEST_QUANTUM))
        }
    };
    QuantumRange { lowest, highest }
}
