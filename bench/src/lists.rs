//! Random lists of jobs, ranges and configurations.

use crate::random::Random;
use crate::same::job::{Job, LONGEST_DEADLINE, LONGEST_DELAY, LONGEST_PERIOD};
use crate::same::setting::Setting;
use crate::same::MOST_JOBS;

/// The ranges of quanta of mixed calls.
const RANGES: [(u8, u8); 4] = [(1, 4), (1, 5), (2, 16), (1, 64)];

/// The most periods that the deadline of a late list has.
const MOST_PERIODS: f64 = 6.0;

/// The part of the deadline that the delay of a delayed list has at most: with more, many lists hold
/// a job that is not served even alone.
const DELAY_PART: u16 = 2;

/// How the times of a random list are drawn.
#[derive(Clone, Copy)]
pub enum Kind {
    /// As in 000, section 6.1: utilisations near each other, costs from 1 to 50, periods up to 1000,
    /// deadlines equal to the periods.
    Even,
    /// Utilisations of any proportion, periods from 4 to 60, deadlines equal to the periods.
    Short,
    /// Utilisations of any proportion, periods up to the longest, some deadlines shorter.
    Wide,
    /// Utilisations of any proportion, periods as in short or wide lists, deadlines from one period
    /// to several.
    Late,
    /// Utilisations of any proportion, times as in short, wide or late lists, delays up to a part
    /// of the deadline.
    Delayed,
}

/// Kinds of lists, each with its name.
pub type Kinds = [(&'static str, Kind)];

impl Kind {
    /// The kinds whose deadlines are within the periods.
    pub const WITHIN_PERIOD: &'static Kinds = &[
        ("even lists", Kind::Even),
        ("short lists", Kind::Short),
        ("wide lists", Kind::Wide),
    ];

    /// The kinds whose deadlines are past the periods. They have lines of their own, so that the
    /// lists of the other lines do not depend on them.
    pub const PAST_PERIOD: &'static Kinds = &[("late lists", Kind::Late)];

    /// The kinds with delays, with lines of their own for the same reason.
    pub const WITH_DELAYS: &'static Kinds = &[("delayed lists", Kind::Delayed)];

    /// One of some kinds.
    pub fn any(random: &mut Random, kinds: &Kinds) -> Kind {
        random.choose(kinds).1
    }
}

/// A job; the cost and the period are brought into their limits.
pub fn job(cost: f64, period: f64, deadline: impl FnOnce(u16, u16) -> u16) -> Job {
    let cost = cost.clamp(1.0, f64::from(LONGEST_PERIOD)) as u16;
    let period = period.clamp(f64::from(cost), f64::from(LONGEST_PERIOD)) as u16;
    Job {
        id: 0,
        delay: 0,
        cost,
        period,
        deadline: deadline(cost, period),
    }
}

/// The job with a deadline of so many periods, or with the longest one.
pub fn late(job: Job, periods: f64) -> Job {
    let deadline = f64::from(job.period) * periods;
    Job {
        deadline: deadline.min(f64::from(LONGEST_DEADLINE)) as u16,
        ..job
    }
}

/// The job with a delay, or with the longest one.
pub fn delayed(job: Job, delay: u16) -> Job {
    Job {
        delay: delay.min(u16::from(LONGEST_DELAY)) as u8,
        ..job
    }
}

/// Gives jobs the ids from 1 on.
pub fn give_ids(jobs: &mut [Job]) {
    for (id, job) in (1..).zip(jobs) {
        job.id = id;
    }
}

/// Jobs whose utilisations sum to about a load.
pub fn list(random: &mut Random, kind: Kind, count: usize, load: f64) -> Vec<Job> {
    let weights: Vec<f64> = (0..count)
        .map(|_| match kind {
            Kind::Even => random.real(0.85, 1.15) / count as f64,
            Kind::Short | Kind::Wide | Kind::Late | Kind::Delayed => random.scaled(0.1, 1.0),
        })
        .collect();
    let sum = match kind {
        Kind::Even => 1.0,
        Kind::Short | Kind::Wide | Kind::Late | Kind::Delayed => weights.iter().sum(),
    };
    let mut jobs: Vec<Job> = weights
        .iter()
        .map(|weight| random_job(random, kind, load * weight / sum))
        .collect();
    give_ids(&mut jobs);
    jobs
}

fn random_job(random: &mut Random, kind: Kind, share: f64) -> Job {
    match kind {
        Kind::Even => {
            let cost = random.real(1.0, 51.0).floor();
            job(cost, (cost / share).min(1000.0), |_, period| period)
        }
        Kind::Short => {
            let period = random.real(4.0, 61.0).floor();
            job((period * share).round(), period, |_, period| period)
        }
        Kind::Wide => {
            let period = random.scaled(8.0, f64::from(LONGEST_PERIOD));
            job(period * share, period, |cost, period| {
                if random.once_in(3) {
                    random.ticks(cost.max(period / 2), period)
                } else {
                    period
                }
            })
        }
        Kind::Late => {
            let kind = random.choose(&[Kind::Short, Kind::Wide]);
            let job = random_job(random, kind, share);
            late(job, random.scaled(1.0, MOST_PERIODS))
        }
        Kind::Delayed => {
            let kind = random.choose(&[Kind::Short, Kind::Wide, Kind::Late]);
            let job = random_job(random, kind, share);
            let most = (job.deadline / DELAY_PART).min(u16::from(LONGEST_DELAY));
            delayed(job, random.ticks(0, most))
        }
    }
}

/// A list of one of some kinds, of a mixed length and load.
pub fn mixed_list(random: &mut Random, kinds: &Kinds) -> Vec<Job> {
    mixed_list_up_to(random, kinds, MOST_JOBS)
}

/// The same of at most so many jobs.
pub fn mixed_list_up_to(random: &mut Random, kinds: &Kinds, most: usize) -> Vec<Job> {
    let kind = Kind::any(random, kinds);
    let count = random.between(1, most);
    let load = random.real(0.6, 1.05);
    list(random, kind, count, load)
}

/// A range of quanta.
pub fn range(random: &mut Random) -> (u8, u8) {
    random.choose(&RANGES)
}

/// Settings of a list: any levels, one in eight jobs not placed unless the configuration is full.
pub fn settings(random: &mut Random, jobs: &[Job], range: (u8, u8), full: bool) -> Vec<Setting> {
    let levels: Vec<u8> = jobs
        .iter()
        .map(|_| match !full && random.once_in(8) {
            true => 0,
            false => random.between(1, jobs.len()) as u8,
        })
        .collect();
    let setting = |(job, level): (&Job, &u8)| {
        let size = levels.iter().filter(|other| *other == level).count();
        let quantum = random.between(usize::from(range.0), usize::from(range.1));
        match level {
            0 => Setting {
                id: job.id,
                ..Setting::default()
            },
            _ => Setting::in_layer(job.id, *level, size as u32, quantum as u8),
        }
    };
    jobs.iter().zip(&levels).map(setting).collect()
}
