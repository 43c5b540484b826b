//! Worked calls on a configuration or on kernel records: what they are given, and the lists and the
//! configurations that several entries are given.

use crate::configuration::QuantumRange;
use crate::frames::Frame;
use crate::generation::lists::job_of_times;
use crate::generation::random::Random;
use crate::jobs::{records_of_jobs, Job};
use crate::key::KEY_RANGE;

/// The id, the delay, the cost, the period and the deadline of a job.
pub type JobNumbers = (u8, u8, u16, u16, u16);

pub type List = &'static [JobNumbers];

/// A worked call.
pub struct Worked {
    pub jobs: List,
    pub quanta: QuantumRange,
    /// The lowest and the highest priority, if the entry is given them.
    pub priorities: Option<[u8; 2]>,
    pub records: &'static [[u8; 4]],
    /// The length of the output.
    pub lent: usize,
}

/// A worked call with the exam lists' range of quanta and without priorities.
pub const fn worked(jobs: List, records: &'static [[u8; 4]], lent: usize) -> Worked {
    Worked {
        jobs,
        quanta: KEY_RANGE,
        priorities: None,
        records,
        lent,
    }
}

/// The worked call with another range of quanta.
pub const fn with_quanta(lowest: u8, highest: u8, call: Worked) -> Worked {
    Worked {
        quanta: QuantumRange { lowest, highest },
        ..call
    }
}

/// The exam lists K1, K2, K4, K7, K8 and K9. K3, K5 and K6 have the jobs of K2.
pub const ONE: List = &[(1, 0, 2, 5, 5)];
pub const TWO: List = &[(1, 0, 6, 8, 8), (2, 0, 5, 22, 22)];
pub const THREE: List = &[(1, 0, 1, 4, 4), (2, 0, 2, 6, 6), (3, 0, 3, 12, 12)];
pub const TWO_LEVELS: List = &[(1, 0, 6, 8, 8), (2, 0, 5, 23, 23)];
pub const WITHOUT_SLACK: List = &[(1, 0, 1, 1, 1), (2, 0, 1, 1, 1)];
pub const ONE_OF_THREE: List = &[(1, 0, 6, 8, 8), (2, 0, 5, 22, 22), (3, 0, 1, 100, 100)];

/// Nine light jobs, and the first eight, five and four of them.
pub const NINE: List = &[
    (1, 0, 1, 100, 100),
    (2, 0, 1, 100, 100),
    (3, 0, 1, 100, 100),
    (4, 0, 1, 100, 100),
    (5, 0, 1, 100, 100),
    (6, 0, 1, 100, 100),
    (7, 0, 1, 100, 100),
    (8, 0, 1, 100, 100),
    (9, 0, 1, 100, 100),
];
pub const EIGHT: List = NINE.split_at(8).0;
pub const FIVE: List = NINE.split_at(5).0;
pub const FOUR: List = NINE.split_at(4).0;

/// No job, and lists with an id of 0, with the same id twice and with a cost of 0.
pub const NONE: List = &[];
pub const ID_0: List = &[(0, 0, 6, 8, 8), (2, 0, 5, 22, 22)];
pub const SAME_ID: List = &[(1, 0, 6, 8, 8), (1, 0, 5, 22, 22)];
pub const COST_0: List = &[(1, 0, 6, 8, 8), (2, 0, 0, 22, 22)];

/// The second exam list's key: id, level, policy and quantum.
pub const KEY: &[[u8; 4]] = &[[1, 2, 2, 3], [2, 2, 2, 1]];

/// Four layers of eight jobs, the first job on the last level; four levels are left out.
pub const FALLING: &[[u8; 4]] = &[
    [1, 8, 2, 1],
    [2, 8, 2, 4],
    [3, 5, 1, 0],
    [4, 4, 2, 2],
    [5, 4, 2, 3],
    [6, 4, 2, 1],
    [7, 1, 2, 4],
    [8, 1, 2, 4],
];

/// The jobs of a list.
pub fn jobs_of_list(list: List) -> Vec<Job> {
    let mut jobs = Vec::new();
    for (id, delay, cost, period, deadline) in list {
        jobs.push(Job {
            id: *id,
            delay: *delay,
            ..job_of_times(*cost, *period, *deadline)
        });
    }
    jobs
}

impl Worked {
    /// The input frame of the call of an entry.
    pub fn input(&self, random: &mut Random, entry: u8) -> Frame {
        let mut numbers = vec![self.quanta.lowest, self.quanta.highest];
        numbers.extend(self.priorities.into_iter().flatten());
        Frame {
            head: entry,
            numbers: numbers.into_iter().map(u16::from).collect(),
            blocks: vec![
                records_of_jobs(&jobs_of_list(self.jobs)),
                self.records.concat(),
                random.filled(self.lent),
            ],
        }
    }
}
