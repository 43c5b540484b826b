//! How the periods of a list stand to each other.

use std::cmp::Reverse;
use std::collections::BTreeMap;

use crate::generation::orders::TWO_BYTES;
use crate::generation::random::Random;
use crate::jobs::{Job, LONGEST_PERIOD};
use crate::sets::{members_of_set, subsets_by_key, sum_of_periods, whole_set};

/// The ways that are looked for. A list may show several.
#[derive(Clone, Copy, Debug, PartialEq, Eq)]
pub enum Shape {
    /// All periods are equal.
    AllEqual,
    /// Two periods or more are equal, and not all.
    SomeEqual,
    /// Two sets of one size have equal sums of other periods, as 4 + 10 and 6 + 8 are.
    EqualSums,
    /// Two sets of one size have sums that differ by one.
    SumsByOne,
    /// Periods never fall along the list, and are not all equal.
    Rising,
    /// Periods never rise along the list, and are not all equal.
    Falling,
    /// Periods rise and fall along the list.
    Mixed,
    /// Two periods have a sum that does not fit in two bytes.
    Long,
}

/// All shapes, each at the place of its number.
pub const SHAPES: [Shape; 8] = [
    Shape::AllEqual,
    Shape::SomeEqual,
    Shape::EqualSums,
    Shape::SumsByOne,
    Shape::Rising,
    Shape::Falling,
    Shape::Mixed,
    Shape::Long,
];

/// The periods of a set's jobs, rising.
fn rising_periods(jobs: &[Job], set: u8) -> Vec<u16> {
    let members = members_of_set(set).into_iter();
    let mut periods: Vec<u16> = members.map(|index| jobs[index].period).collect();
    periods.sort_unstable();
    periods
}

/// The sets of jobs of a list, by their sizes and sums: the rising periods of each.
fn periods_by_sum(jobs: &[Job]) -> BTreeMap<(u32, u32), Vec<Vec<u16>>> {
    let mut by_sum: BTreeMap<_, Vec<Vec<u16>>> = BTreeMap::new();
    for set in subsets_by_key(whole_set(jobs), |set| set) {
        let key = (set.count_ones(), sum_of_periods(jobs, set));
        by_sum
            .entry(key)
            .or_default()
            .push(rising_periods(jobs, set));
    }
    by_sum
}

impl Shape {
    /// Whether a list has this shape.
    pub fn is_shown_by(self, jobs: &[Job]) -> bool {
        let mut pairs = jobs.windows(2);
        let rises = pairs.clone().any(|pair| pair[0].period < pair[1].period);
        let falls = pairs.any(|pair| pair[0].period > pair[1].period);
        let rising = rising_periods(jobs, whole_set(jobs));
        match self {
            Shape::AllEqual => !rises && !falls,
            Shape::SomeEqual => {
                let mut pairs = rising.windows(2);
                (rises || falls) && pairs.any(|pair| pair[0] == pair[1])
            }
            Shape::EqualSums => {
                let by_sum = periods_by_sum(jobs);
                let mut same_sums = by_sum.values();
                same_sums.any(|periods| periods.iter().any(|other| *other != periods[0]))
            }
            Shape::SumsByOne => {
                let by_sum = periods_by_sum(jobs);
                let mut keys = by_sum.keys();
                keys.any(|(size, sum)| by_sum.contains_key(&(*size, sum + 1)))
            }
            Shape::Rising => rises && !falls,
            Shape::Falling => falls && !rises,
            Shape::Mixed => rises && falls,
            Shape::Long => {
                let longest: u32 = rising.iter().rev().take(2).map(|one| u32::from(*one)).sum();
                longest > TWO_BYTES
            }
        }
    }

    /// Gives jobs periods of this shape. Sums are made with jobs of a layer and jobs that are not of
    /// it, since the layer is likely to be taken. False if a job cannot have the period.
    pub fn give(self, random: &mut Random, jobs: &mut [Job], layer: &[usize]) -> bool {
        match self {
            Shape::AllEqual => give_all(jobs, layer),
            Shape::SomeEqual => give_sum(random, jobs, layer, (1, 0)),
            Shape::EqualSums => give_sum(random, jobs, layer, (2, 0)),
            Shape::SumsByOne => {
                let differing = random.between(1, 2);
                let more = random.choose(&[1, -1]);
                give_sum(random, jobs, layer, (differing, more))
            }
            Shape::Long => {
                let longest = random.below(jobs.len());
                if !layer.contains(&longest) {
                    jobs[longest].period = LONGEST_PERIOD;
                }
                true
            }
            Shape::Rising | Shape::Falling | Shape::Mixed => true,
        }
    }

    /// Puts the jobs into an order along the list that this shape has.
    pub fn arrange(self, random: &mut Random, jobs: &mut [Job]) {
        match self {
            Shape::Rising => jobs.sort_by_key(|job| job.period),
            Shape::Falling => jobs.sort_by_key(|job| Reverse(job.period)),
            _ => random.shuffle(jobs),
        }
    }
}

/// Gives all jobs the longest period of a layer. False if a job costs more.
fn give_all(jobs: &mut [Job], layer: &[usize]) -> bool {
    let longest = layer.iter().map(|index| jobs[*index].period).max();
    for job in jobs.iter_mut() {
        job.period = longest.unwrap_or(job.period);
    }
    jobs.iter().all(|job| job.cost <= job.period)
}

/// Gives one job the period with which so many jobs that are not of a layer have so much more in
/// sum than as many jobs of the layer. False if there are not so many or the job cannot have the
/// period.
fn give_sum(
    random: &mut Random,
    jobs: &mut [Job],
    layer: &[usize],
    (count, more): (usize, i64),
) -> bool {
    let mut inside = layer.to_vec();
    let mut outside: Vec<usize> = (0..jobs.len()).collect();
    outside.retain(|index| !layer.contains(index));
    random.shuffle(&mut inside);
    random.shuffle(&mut outside);
    if inside.len() < count || outside.len() < count {
        return false;
    }
    let sum = |indexes: &[usize]| -> i64 {
        let periods = indexes.iter().map(|index| i64::from(jobs[*index].period));
        periods.sum()
    };
    let period = sum(&inside[..count]) + more - sum(&outside[1..count]);
    let job = &mut jobs[outside[0]];
    if period < i64::from(job.cost) || period > i64::from(LONGEST_PERIOD) {
        return false;
    }
    job.period = period as u16;
    true
}
