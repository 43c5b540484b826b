//! How the two bounds of a policy 2 job stand to each other.

use std::cmp::Ordering;

use crate::configuration::Setting;
use crate::generation::long_deadlines::{first_run_by_recurrence, second_run_by_recurrence};
use crate::jobs::{Job, LONGEST_DEADLINE};
use crate::response_time::Run;

/// The ways in which the two bounds may stand to each other.
#[derive(Clone, Copy, Debug, PartialEq, Eq)]
pub enum Situation {
    /// Neither is 0, and the first is the lesser.
    FirstLess,
    /// Neither is 0, and the second is the lesser.
    SecondLess,
    /// Both are the same, and not 0.
    Equal,
    /// The second is 0, and the first is not.
    FirstAlone,
    /// The first is 0, and the second is not.
    SecondAlone,
    /// Both are 0.
    Neither,
}

/// All situations, each at the place of its number.
pub const SITUATIONS: [Situation; 6] = [
    Situation::FirstLess,
    Situation::SecondLess,
    Situation::Equal,
    Situation::FirstAlone,
    Situation::SecondAlone,
    Situation::Neither,
];

/// The first run and the second run of a policy 2 job.
pub fn two_runs(jobs: &[Job], settings: &[Setting], index: usize) -> [Run; 2] {
    [
        first_run_by_recurrence(jobs, settings, index),
        second_run_by_recurrence(jobs, settings, index),
    ]
}

/// The first bound and the second bound of a policy 2 job.
pub fn two_bounds(jobs: &[Job], settings: &[Setting], index: usize) -> [u16; 2] {
    two_runs(jobs, settings, index).map(|run| run.bound())
}

/// The longest deadline with which a bound is 0, if it is this one with the longest of all.
fn longest_without(bound: u16) -> u16 {
    match bound {
        0 => LONGEST_DEADLINE,
        _ => bound - 1,
    }
}

impl Situation {
    /// The situation of two bounds.
    pub fn of_bounds([first, second]: [u16; 2]) -> Situation {
        match (first, second) {
            (0, 0) => Situation::Neither,
            (0, _) => Situation::SecondAlone,
            (_, 0) => Situation::FirstAlone,
            _ => match first.cmp(&second) {
                Ordering::Less => Situation::FirstLess,
                Ordering::Equal => Situation::Equal,
                Ordering::Greater => Situation::SecondLess,
            },
        }
    }

    /// The least and the longest of the deadlines with which a job is in this situation, if it can
    /// be. The two bounds are those with the longest deadline of all; with a deadline below a bound
    /// that bound is 0, and else it stays.
    pub fn deadlines(self, [first, second]: [u16; 2]) -> (u16, u16) {
        match self {
            Situation::FirstLess | Situation::SecondLess | Situation::Equal => {
                (first.max(second), LONGEST_DEADLINE)
            }
            Situation::FirstAlone => (first, longest_without(second)),
            Situation::SecondAlone => (second, longest_without(first)),
            Situation::Neither => (1, longest_without(first).min(longest_without(second))),
        }
    }
}
