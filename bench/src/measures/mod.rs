//! The measures, a module for each.

pub mod breakdown;
pub mod gate;
pub mod hand_ins;
pub mod loader;
pub mod mean_plan;
pub mod pruned_search;
pub mod same_algorithm;
pub mod same_bytes;
pub mod slowest_list;

use crate::calls::{Answer, Case, Mark, Plan};
use crate::library;
use crate::opponent::OPPONENT;
use crate::timing::{alternate, Effort, Sides};
use std::hint::black_box;

/// How much is measured.
#[derive(Clone, Copy)]
pub struct Scale {
    pub seed: u64,
    /// Whether another version of the product tries sets in another order, so that its plans are
    /// compared by the placed set alone.
    pub placed: bool,
    /// The number of random lists that are planned.
    pub lists: usize,
    /// The number of random lists with configurations that are marked: many, because a processor
    /// foresees the branches of a few when they come again and again.
    pub hand_ins: usize,
    /// The number of lists on which the pruned search is run.
    pub pruned_lists: usize,
    /// The work that a search for the slowest list may spend.
    pub search_work: u64,
    pub effort: Effort,
}

/// Runs a call over all cases.
fn pass(cases: &[Case], answer: &mut Answer, call: impl Fn(&Case, &mut Answer)) {
    for case in cases {
        call(black_box(case), answer);
        black_box(&answer);
    }
}

/// The mean seconds of two calls over the cases.
fn time_calls(
    cases: &[Case],
    effort: Effort,
    ours: impl Fn(&Case, &mut Answer),
    other: impl Fn(&Case, &mut Answer),
) -> Sides {
    let (mut mine, mut theirs) = (Answer::blank(), Answer::blank());
    let times = alternate(
        effort,
        || pass(cases, &mut mine, &ours),
        || pass(cases, &mut theirs, &other),
    );
    times.per(cases.len())
}

/// The mean seconds of two planners over the cases.
pub fn time_plans(cases: &[Case], effort: Effort, ours: Plan, other: Plan) -> Sides {
    let call = |plan: Plan| move |case: &Case, answer: &mut Answer| case.call_plan(plan, answer);
    time_calls(cases, effort, call(ours), call(other))
}

/// The same of two entries for bounds or marks.
pub fn time_marks(cases: &[Case], effort: Effort, ours: Mark, other: Mark) -> Sides {
    let call = |mark: Mark| move |case: &Case, answer: &mut Answer| case.call_mark(mark, answer);
    time_calls(cases, effort, call(ours), call(other))
}

/// Checks that the product and its opponent give the same plans for every case, or the same placed
/// sets where that alone is asked for.
pub fn check_opponent(scale: &Scale, cases: &[Case]) {
    if scale.placed {
        check_placed(cases, library::plan, OPPONENT.plan);
    } else {
        check_plans(cases, library::plan, OPPONENT.plan);
    }
}

/// Checks that two planners place the same sets.
pub fn check_placed(cases: &[Case], ours: Plan, other: Plan) {
    for case in cases {
        let (ours, other) = (case.planned(ours), case.planned(other));
        assert_eq!(ours.placed(), other.placed(), "placed sets differ");
    }
}

/// Checks that two planners give the same words and bytes for every case.
pub fn check_plans(cases: &[Case], ours: Plan, other: Plan) {
    for case in cases {
        assert_eq!(case.planned(ours), case.planned(other), "plans differ");
    }
}

/// Checks that two entries for bounds or marks give the same words and bytes for every case.
pub fn check_marks(cases: &[Case], ours: Mark, other: Mark) {
    for case in cases {
        assert_eq!(case.marked(ours), case.marked(other), "bounds differ");
    }
}
