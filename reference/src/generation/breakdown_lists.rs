//! Lists with a configuration in which the breakdown of some job's bound shows a wanted feature.

use crate::configuration::QuantumRange;
use crate::generation::call::Parts;
use crate::generation::configured::{any_configured, Configured};
use crate::generation::effects::bound_by_recurrence;
use crate::generation::features::Feature;
use crate::generation::lists::{give_ids, near_full, range as any_range};
use crate::generation::random::Random;
use crate::jobs::{LONGEST_DEADLINE, MOST_JOBS};

/// How often a list is drawn until a job shows the wanted feature. Equal bounds with other amounts
/// are shown by about one list in 500, the other features by far more.
const ATTEMPTS: usize = 4_000;

/// The features that lists are drawn for in turn.
const WANTED: [Feature; 12] = [
    Feature::SecondDelayedLater,
    Feature::FirstLater,
    Feature::EqualApart,
    Feature::SecondLater,
    Feature::ReachedAgain,
    Feature::AloneLater,
    Feature::SecondDelayed,
    Feature::ReachedLate,
    Feature::LongAmount,
    Feature::SecondDelayedLater,
    Feature::LongestDelay,
    Feature::BelowNotPlaced,
];

/// The longest delays in turn.
const LONGEST_DELAYS: [u8; 6] = [4, 40, 0, 12, 40, u8::MAX];

/// A list that needs about the whole processor, so that runs have many instances, with the longest
/// deadlines and any configuration. A job with the longest delay, or one that is not placed, is
/// there where it is wanted.
fn drawn(random: &mut Random, feature: Feature, count: usize, range: QuantumRange) -> Configured {
    let longest = random.choose(&LONGEST_DELAYS);
    let mut jobs = near_full(random, count);
    for job in &mut jobs {
        job.delay = random.byte(0, longest);
        job.deadline = LONGEST_DEADLINE;
    }
    if feature == Feature::LongestDelay {
        jobs[random.below(count)].delay = u8::MAX;
    }
    give_ids(random, &mut jobs);
    let is_full = feature != Feature::BelowNotPlaced && !random.once_in(5);
    any_configured(random, jobs, range, is_full)
}

/// Gives the jobs deadlines at their bounds, above them, or just below; they stay the longest where
/// a bound is 0.
fn give_deadlines(random: &mut Random, list: &mut Configured) {
    for index in 0..list.jobs.len() {
        let bound = bound_by_recurrence(&list.jobs, &list.settings, index);
        if bound == 0 {
            continue;
        }
        let any = random.ticks(bound, LONGEST_DEADLINE);
        let below = (bound - 1).max(list.jobs[index].cost);
        let above = (bound + 1).min(LONGEST_DEADLINE);
        let choices = [bound, bound, bound, above, any, LONGEST_DEADLINE, below];
        list.jobs[index].deadline = random.choose(&choices);
    }
}

/// A list with a configuration in which some job shows the feature that is in turn, and its range.
/// If no draw gives one, it is the last list drawn.
pub fn parts_with_feature(random: &mut Random, turn: usize) -> Parts {
    let feature = WANTED[turn % WANTED.len()];
    let (mut list, mut range) = (Configured::default(), any_range(random));
    for _ in 0..ATTEMPTS {
        let count = random.between(1, MOST_JOBS);
        list = drawn(random, feature, count, range);
        if feature.is_shown_by_some(&list.jobs, &list.settings) {
            break;
        }
        range = any_range(random);
    }
    let with_longest = list.jobs.clone();
    give_deadlines(random, &mut list);
    if !feature.is_shown_by_some(&list.jobs, &list.settings) {
        list.jobs = with_longest;
    }
    Parts::of_list(list, range)
}
