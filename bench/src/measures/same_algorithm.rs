//! Measure a: bounds, mark and plan against the same algorithm in Rust, or against another version,
//! over random lists.

use crate::calls::Case;
use crate::library;
use crate::lists::{self, Kind, Kinds};
use crate::measures::{check_marks, check_opponent, time_marks, time_plans, Scale};
use crate::opponent::OPPONENT;
use crate::random::Random;
use crate::report::{ratio, Goal};

/// Calls for random lists of some kinds with any levels.
pub fn configurations(random: &mut Random, kinds: &Kinds, count: usize, full: bool) -> Vec<Case> {
    let case = |_| {
        let jobs = lists::mixed_list(random, kinds);
        let range = lists::range(random);
        let settings = lists::settings(random, &jobs, range, full);
        Case::mark(&jobs, range, &settings)
    };
    (0..count).map(case).collect()
}

/// The three entries over lists of some kinds; the names of the lines end in some words.
fn compare(scale: &Scale, random: &mut Random, kinds: &Kinds, ending: &str) {
    let other = OPPONENT;
    let goal = || Goal::AtMost(other.goal);

    let cases = configurations(random, kinds, scale.hand_ins, false);
    check_marks(&cases, library::bounds, other.bounds);
    let times = time_marks(&cases, scale.effort, library::bounds, other.bounds);
    ratio(&format!("a bounds{ending}"), &times, other.name, goal());

    let cases = configurations(random, kinds, scale.hand_ins, true);
    check_marks(&cases, library::mark, other.mark);
    let times = time_marks(&cases, scale.effort, library::mark, other.mark);
    ratio(&format!("a mark{ending}"), &times, other.name, goal());

    let cases: Vec<Case> = (0..scale.lists)
        .map(|_| Case::plan(&lists::mixed_list(random, kinds), lists::range(random)))
        .collect();
    check_opponent(scale, &cases);
    let times = time_plans(&cases, scale.effort, library::plan, other.plan);
    ratio(&format!("a plan{ending}"), &times, other.name, goal());
}

pub fn run(scale: &Scale) {
    let random = &mut Random::of_measure(scale.seed, 1);
    compare(scale, random, Kind::WITHIN_PERIOD, "");
    let random = &mut Random::of_measure(scale.seed, 7);
    compare(scale, random, Kind::PAST_PERIOD, ", late lists");
    let random = &mut Random::of_measure(scale.seed, 11);
    compare(scale, random, Kind::WITH_DELAYS, ", delayed lists");
}
