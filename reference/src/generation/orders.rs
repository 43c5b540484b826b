//! Orders of sets that are not E7's, which stored cases are to tell from it. Each is E7's but for
//! one mistake.

use crate::jobs::Job;
use crate::sets::{members_of_set, subsets_by_key, sum_of_periods, SetOrder};

/// The most that two bytes hold.
pub const TWO_BYTES: u32 = u16::MAX as u32;

/// What sets are sorted by, those with smaller keys first.
type Key = [i64; 3];

/// The key of a set whose sum is taken to be this one: E7's, if it is the sum of periods.
fn key_of_sum(set: u8, sum: u32) -> Key {
    [i64::from(set.count_ones()), -i64::from(sum), i64::from(set)]
}

/// The key of a set in E7's order.
fn right_key(jobs: &[Job], set: u8) -> Key {
    key_of_sum(set, sum_of_periods(jobs, set))
}

/// E7's order, but that the sets of so many jobs or more have another key.
fn changed_from(size: u32, jobs: &[Job], rest: u8, key: impl Fn(u8) -> Key) -> Vec<u8> {
    subsets_by_key(rest, |set| {
        if set.count_ones() < size {
            right_key(jobs, set)
        } else {
            key(set)
        }
    })
}

/// Among sets of so many jobs or more the smaller sum is first.
pub fn smaller_sum_first<const SIZE: u32>(jobs: &[Job], rest: u8) -> Vec<u8> {
    changed_from(SIZE, jobs, rest, |set| {
        let [size, sum, number] = right_key(jobs, set);
        [size, -sum, number]
    })
}

/// The larger sum comes before the smaller size.
pub fn sums_before_sizes(jobs: &[Job], rest: u8) -> Vec<u8> {
    subsets_by_key(rest, |set| {
        let [size, sum, number] = right_key(jobs, set);
        [sum, size, number]
    })
}

/// Among sets of so many jobs or more with equal sums the larger number is first.
pub fn larger_number_first<const SIZE: u32>(jobs: &[Job], rest: u8) -> Vec<u8> {
    changed_from(SIZE, jobs, rest, |set| {
        let [size, sum, number] = right_key(jobs, set);
        [size, sum, -number]
    })
}

/// The sum of a set of so many jobs or more is without its last job.
pub fn sums_without_last_job<const SIZE: u32>(jobs: &[Job], rest: u8) -> Vec<u8> {
    changed_from(SIZE, jobs, rest, |set| {
        let last = 1 << set.ilog2();
        key_of_sum(set, sum_of_periods(jobs, set & !last))
    })
}

/// Sums are kept in two bytes.
pub fn sums_in_two_bytes(jobs: &[Job], rest: u8) -> Vec<u8> {
    subsets_by_key(rest, |set| {
        key_of_sum(set, sum_of_periods(jobs, set) % (TWO_BYTES + 1))
    })
}

/// Sums end at the most that two bytes hold.
pub fn sums_up_to_two_bytes(jobs: &[Job], rest: u8) -> Vec<u8> {
    subsets_by_key(rest, |set| {
        key_of_sum(set, sum_of_periods(jobs, set).min(TWO_BYTES))
    })
}

/// Among sets of so many jobs or more periods play no part: from one job on it is 01's order.
pub fn numbers_alone<const SIZE: u32>(jobs: &[Job], rest: u8) -> Vec<u8> {
    changed_from(SIZE, jobs, rest, |set| key_of_sum(set, 0))
}

/// Sums are halved and rounded down, so that some that differ by one are the same.
pub fn sums_halved(jobs: &[Job], rest: u8) -> Vec<u8> {
    subsets_by_key(rest, |set| key_of_sum(set, sum_of_periods(jobs, set) / 2))
}

/// Deadlines are summed.
pub fn sums_of_deadlines(jobs: &[Job], rest: u8) -> Vec<u8> {
    subsets_by_key(rest, |set| {
        let members = members_of_set(set).into_iter();
        let deadlines = members.map(|index| u32::from(jobs[index].deadline));
        key_of_sum(set, deadlines.sum())
    })
}

/// The longest period stands for the sum.
pub fn longest_period_first(jobs: &[Job], rest: u8) -> Vec<u8> {
    subsets_by_key(rest, |set| {
        let members = members_of_set(set).into_iter();
        let longest = members.map(|index| jobs[index].period).max();
        key_of_sum(set, longest.map_or(0, u32::from))
    })
}

/// A wrong order with its name.
pub type WrongOrder = (&'static str, SetOrder);

/// All of them.
pub const WRONG_ORDERS: [WrongOrder; 17] = [
    ("the smaller sum first", smaller_sum_first::<1>),
    (
        "the smaller sum first, from 2 jobs on",
        smaller_sum_first::<2>,
    ),
    (
        "the smaller sum first, from 3 jobs on",
        smaller_sum_first::<3>,
    ),
    ("sums before sizes", sums_before_sizes),
    ("the larger number first", larger_number_first::<1>),
    (
        "the larger number first, from 2 jobs on",
        larger_number_first::<2>,
    ),
    (
        "the larger number first, from 3 jobs on",
        larger_number_first::<3>,
    ),
    ("sums without the last job", sums_without_last_job::<1>),
    (
        "sums without the last job, from 2 on",
        sums_without_last_job::<2>,
    ),
    ("sums in two bytes", sums_in_two_bytes),
    ("sums up to two bytes", sums_up_to_two_bytes),
    ("01's order", numbers_alone::<1>),
    ("01's order, from 2 jobs on", numbers_alone::<2>),
    ("01's order, from 3 jobs on", numbers_alone::<3>),
    ("sums halved", sums_halved),
    ("sums of deadlines", sums_of_deadlines),
    ("the longest period for the sum", longest_period_first),
];
