//! Measure i: the start gate's entries over lists within its limits, against the same algorithm in
//! Rust and against the mats' entries, which give the same answers.

use crate::calls::Case;
use crate::library;
use crate::lists::{self, Kind};
use crate::measures::{check_marks, check_plans, time_marks, time_plans, Scale};
use crate::random::Random;
use crate::report::{ratio, within, Goal};
use crate::same::gate::{self, GATE_JOBS, GATE_QUANTUM};

/// The goal for the product's time in parts of Rust's.
const GOAL: f64 = 1.25;

/// Calls with lists and ranges within the limits, and full configurations of any levels.
fn cases(random: &mut Random, count: usize) -> Vec<Case> {
    let case = |_| {
        let jobs = lists::mixed_list_up_to(random, Kind::WITHIN_PERIOD, GATE_JOBS);
        let range = random.choose(&[(1, 4), (1, 5), (2, GATE_QUANTUM), (1, GATE_QUANTUM)]);
        let settings = lists::settings(random, &jobs, range, true);
        Case::mark(&jobs, range, &settings)
    };
    (0..count).map(case).collect()
}

pub fn run(scale: &Scale) {
    let random = &mut Random::of_measure(scale.seed, 17);
    let plans = cases(random, scale.lists);
    check_plans(&plans, library::gate_plan, gate::gate_plan);
    check_plans(&plans, library::gate_plan, library::plan);
    let times = time_plans(&plans, scale.effort, library::gate_plan, gate::gate_plan);
    ratio("i gate_plan", &times, "rust", Goal::AtMost(GOAL));
    let times = time_plans(&plans, scale.effort, library::gate_plan, library::plan);
    within("i gate_plan beside plan", &times, "plan", None);

    let marks = cases(random, scale.hand_ins);
    check_marks(&marks, library::gate_mark, gate::gate_mark);
    check_marks(&marks, library::gate_mark, library::mark);
    let times = time_marks(&marks, scale.effort, library::gate_mark, gate::gate_mark);
    ratio("i gate_mark", &times, "rust", Goal::AtMost(GOAL));
    let times = time_marks(&marks, scale.effort, library::gate_mark, library::mark);
    within("i gate_mark beside mark", &times, "mark", None);
}
