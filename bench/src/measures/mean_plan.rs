//! Measure e: the mean time of a plan over random lists of 8 jobs, range 1 to 64.

use crate::calls::Case;
use crate::library;
use crate::lists::{self, Kind, Kinds};
use crate::measures::{check_opponent, time_plans, Scale};
use crate::opponent::OPPONENT;
use crate::random::Random;
use crate::report;
use crate::same::MOST_JOBS;

/// The goal for the mean over lists with deadlines within the periods, in seconds.
const GOAL: f64 = 0.2e-3;

const RANGE: (u8, u8) = (1, 64);

/// A line for each of some kinds of lists.
fn run_kinds(scale: &Scale, random: &mut Random, kinds: &Kinds, goal: Option<f64>) {
    for (name, kind) in kinds {
        let case = |_| {
            let load = random.real(0.6, 1.05);
            Case::plan(&lists::list(random, *kind, MOST_JOBS, load), RANGE)
        };
        let cases: Vec<Case> = (0..scale.lists).map(case).collect();
        check_opponent(scale, &cases);
        let times = time_plans(&cases, scale.effort, library::plan, OPPONENT.plan);
        report::within(&format!("e mean plan, {name}"), &times, OPPONENT.name, goal);
    }
}

pub fn run(scale: &Scale) {
    let random = &mut Random::of_measure(scale.seed, 5);
    run_kinds(scale, random, Kind::WITHIN_PERIOD, Some(GOAL));
    let random = &mut Random::of_measure(scale.seed, 9);
    run_kinds(scale, random, Kind::PAST_PERIOD, None);
    let random = &mut Random::of_measure(scale.seed, 13);
    run_kinds(scale, random, Kind::WITH_DELAYS, None);
}
