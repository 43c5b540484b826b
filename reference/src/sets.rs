//! Sets of jobs of a list by their numbers, and the orders in which the planner takes them.

use std::cmp::Reverse;

use crate::jobs::{Job, MOST_JOBS};

/// An order of sets: the non-empty subsets of a set of jobs of a list, the first one first.
pub type SetOrder = fn(&[Job], u8) -> Vec<u8>;

/// The job indexes of a set: "A set is numbered with the list's first job as 1, the second as 2,
/// the third as 4 and so on".
pub fn members_of_set(set: u8) -> Vec<usize> {
    (0..MOST_JOBS)
        .filter(|index| set & (1 << index) != 0)
        .collect()
}

/// The set of all jobs of a list.
pub fn whole_set(jobs: &[Job]) -> u8 {
    (0..jobs.len()).fold(0, |set, index| set | 1 << index)
}

/// The sum of the periods of a set's jobs. Eight periods of 60,000 do not fit in two bytes.
pub fn sum_of_periods(jobs: &[Job], set: u8) -> u32 {
    let members = members_of_set(set).into_iter();
    members.map(|index| u32::from(jobs[index].period)).sum()
}

/// The non-empty subsets of a set, those with smaller keys first.
pub fn subsets_by_key<K: Ord>(rest: u8, key: impl Fn(u8) -> K) -> Vec<u8> {
    let mut subsets: Vec<u8> = (1..=255).filter(|set| set & rest == *set).collect();
    subsets.sort_by_cached_key(|set| key(*set));
    subsets
}

/// 01's order: "the non-empty subsets of R are taken smaller ones first"; "among sets of one size
/// the smaller number is first."
pub fn by_number(_: &[Job], rest: u8) -> Vec<u8> {
    subsets_by_key(rest, |set| (set.count_ones(), set))
}

/// E7's order: "From now on sets go by size, then by larger sum of periods, then by smaller set
/// number."
pub fn by_periods(jobs: &[Job], rest: u8) -> Vec<u8> {
    subsets_by_key(rest, |set| {
        let sum = sum_of_periods(jobs, set);
        (set.count_ones(), Reverse(sum), set)
    })
}
