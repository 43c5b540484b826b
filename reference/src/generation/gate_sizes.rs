//! How the number of jobs and the highest quantum of a call stand to the gate's limits, and numbers
//! of jobs and ranges drawn for that.

use crate::configuration::{QuantumRange, LONGEST_QUANTUM};
use crate::gate::Limits;
use crate::generation::random::Random;
use crate::jobs::MOST_JOBS;

/// Whether a call is within the gate's limits, or by what it is past them.
#[derive(Clone, Copy, Debug, PartialEq, Eq)]
pub enum Size {
    Within,
    PastByJobs,
    PastByQuantum,
    PastByBoth,
}

/// The sizes past the limits.
pub const PAST: [Size; 3] = [Size::PastByJobs, Size::PastByQuantum, Size::PastByBoth];

impl Size {
    /// The size of a call on so many jobs in a range with this highest quantum.
    pub fn of_call(job_count: usize, highest: u8) -> Size {
        let Limits {
            most_jobs,
            highest_quantum,
        } = Limits::GATE;
        match (job_count > most_jobs, highest > highest_quantum) {
            (false, false) => Size::Within,
            (true, false) => Size::PastByJobs,
            (false, true) => Size::PastByQuantum,
            (true, true) => Size::PastByBoth,
        }
    }

    /// A number of jobs: up to the limit and from a least one on, or past the limit and then every
    /// other time by one job.
    pub fn job_count(self, random: &mut Random, least: usize) -> usize {
        let most = Limits::GATE.most_jobs;
        match self {
            Size::Within | Size::PastByQuantum => random.between(least.min(most), most),
            Size::PastByJobs | Size::PastByBoth => {
                let more = random.between(most + 2, MOST_JOBS);
                random.choose(&[most + 1, more])
            }
        }
    }

    /// A range: its highest quantum is up to the limit and often the limit itself, or past it and
    /// then often by one.
    pub fn range(self, random: &mut Random) -> QuantumRange {
        let limit = Limits::GATE.highest_quantum;
        let highest = match self {
            Size::Within | Size::PastByJobs => {
                let any = random.byte(1, limit);
                random.choose(&[limit, any])
            }
            Size::PastByQuantum | Size::PastByBoth => {
                let any = random.byte(limit + 1, LONGEST_QUANTUM);
                random.choose(&[limit + 1, limit + 1, any, any, LONGEST_QUANTUM])
            }
        };
        let any = random.byte(1, highest);
        QuantumRange {
            lowest: random.choose(&[1, 1, any, highest]),
            highest,
        }
    }
}
