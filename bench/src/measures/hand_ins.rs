//! Measure d: hand-ins marked per second, full configurations of 8 jobs.

use crate::calls::Case;
use crate::library;
use crate::lists::{self, Kind, Kinds};
use crate::measures::{check_marks, time_marks, Scale};
use crate::opponent::OPPONENT;
use crate::random::Random;
use crate::report;
use crate::same::MOST_JOBS;

const RANGE: (u8, u8) = (1, 64);

/// A hand-in: half of them, where the planner places every job, its plan; otherwise any full
/// configuration.
fn hand_in(random: &mut Random, kinds: &Kinds) -> Case {
    let kind = Kind::any(random, kinds);
    let load = random.real(0.6, 0.95);
    let jobs = lists::list(random, kind, MOST_JOBS, load);
    let settings = lists::settings(random, &jobs, RANGE, true);
    let mut case = Case::mark(&jobs, RANGE, &settings);
    let answer = case.planned(library::plan);
    if answer.placed() == u8::MAX && random.once_in(2) {
        case.configuration = answer.configuration.to_vec();
    }
    case
}

/// Hand-ins for lists of some kinds.
fn run_kinds(scale: &Scale, random: &mut Random, kinds: &Kinds, name: &str) {
    let case = |_| hand_in(random, kinds);
    let cases: Vec<Case> = (0..scale.hand_ins).map(case).collect();
    check_marks(&cases, library::mark, OPPONENT.mark);
    let times = time_marks(&cases, scale.effort, library::mark, OPPONENT.mark);
    report::per_second(name, &times, OPPONENT.name);
}

pub fn run(scale: &Scale) {
    let random = &mut Random::of_measure(scale.seed, 4);
    run_kinds(scale, random, Kind::WITHIN_PERIOD, "d hand-ins");
    let random = &mut Random::of_measure(scale.seed, 8);
    run_kinds(scale, random, Kind::PAST_PERIOD, "d hand-ins, late lists");
    let random = &mut Random::of_measure(scale.seed, 12);
    run_kinds(
        scale,
        random,
        Kind::WITH_DELAYS,
        "d hand-ins, delayed lists",
    );
}
