//! Measure b: plan against the search that enumerates quanta lists with 000's pruning, over random
//! lists of 8 jobs, range 1 to 5, that need a shared level.

use crate::calls::{Case, Plan};
use crate::counted::{work, Counted};
use crate::library;
use crate::lists::{self, Kind};
use crate::measures::{check_placed, check_plans, time_plans, Scale};
use crate::pruned::{self, DepthFirst, InOrder, WholeLists};
use crate::random::Random;
use crate::report::{self, Goal};
use crate::same::planner::{Question, Raising, Search, Taken};
use crate::same::response::Iteration;
use crate::same::MOST_JOBS;
use crate::timing::{Effort, Sides};
use std::slice::from_ref;

const GOAL: f64 = 100.0;

const RANGE: (u8, u8) = (1, 5);

/// The pairs of batches in which a list is measured.
const PAIRS: usize = 7;

/// A list that the product places whole with a shared level. No such list can be served with one
/// job on each level: the product takes single jobs first.
fn shared(random: &mut Random, kind: Kind) -> Case {
    loop {
        let load = random.real(0.75, 0.95);
        let case = Case::plan(&lists::list(random, kind, MOST_JOBS, load), RANGE);
        if case.is_shared(&case.planned(library::plan)) {
            return case;
        }
    }
}

/// Checks that the sets in order give the same answer, and the sets depth first the same placed set.
fn check(cases: &[Case]) {
    check_plans(cases, library::plan, pruned::plan_whole_lists);
    check_plans(cases, library::plan, pruned::plan_in_order);
    check_placed(cases, library::plan, pruned::plan_depth_first);
}

/// The mean times over the lists, and for each list how many times faster, rising.
fn compare(cases: &[Case], effort: Effort, other: Plan) -> (Sides, Vec<f64>) {
    let each: Vec<Sides> = cases
        .iter()
        .map(|case| time_plans(from_ref(case), effort, library::plan, other))
        .collect();
    let sum = Sides {
        ours: each.iter().map(|times| times.ours).sum(),
        other: each.iter().map(|times| times.other).sum(),
    };
    let mut faster: Vec<f64> = each.iter().map(Sides::times_faster).collect();
    faster.sort_by(f64::total_cmp);
    (sum.per(cases.len()), faster)
}

/// The product's search, of which the first test of each set alone is counted.
struct FirstTests<'c>(&'c Counted);

impl Search for FirstTests<'_> {
    fn take<I: Iteration>(&self, question: &Question<I>) -> (Option<Taken>, u16) {
        question.take_first(|layer| {
            let within = layer.is_within_reach(&layer.lowest_quanta());
            self.0.without(|| within.then(|| layer.quanta()).flatten())
        })
    }
}

/// The work over the lists of a search, in parts of that of the first tests.
fn in_first_tests(cases: &[Case], work_of: impl Fn(&Case, &Counted) -> u64) -> f64 {
    let sum = |work_of: &dyn Fn(&Case, &Counted) -> u64| -> u64 {
        let each = |case| work_of(case, &Counted::default());
        cases.iter().map(each).sum()
    };
    let first = sum(&|case, counted| work(case, counted, FirstTests(counted)));
    sum(&work_of) as f64 / first as f64
}

/// How far any search that makes the first tests could come: the work of each search in parts of
/// that of the product's first tests, all with the same response-time test.
fn report_work(lists: &str, cases: &[Case]) {
    let ours = in_first_tests(cases, |case, counted| work(case, counted, Raising));
    let whole = in_first_tests(cases, |case, counted| work(case, counted, WholeLists));
    let in_order = in_first_tests(cases, |case, counted| work(case, counted, InOrder));
    let depth_first = in_first_tests(cases, |case, counted| work(case, counted, DepthFirst));
    report::note(&format!(
        "{lists}, work in parts of the first tests: ours {ours:.2}, whole lists {whole:.2}, \
         in order {in_order:.2}, depth first {depth_first:.2}"
    ));
}

pub fn run(scale: &Scale) {
    let random = &mut Random::of_measure(scale.seed, 2);
    let effort = Effort {
        pairs: PAIRS,
        ..scale.effort
    };
    let searches: [(&str, Plan); 3] = [
        ("whole lists", pruned::plan_whole_lists),
        ("in order", pruned::plan_in_order),
        ("depth first", pruned::plan_depth_first),
    ];
    for (lists, kind) in Kind::WITHIN_PERIOD {
        let case = |_| shared(random, *kind);
        let cases: Vec<Case> = (0..scale.pruned_lists).map(case).collect();
        check(&cases);
        for (search, other) in searches {
            let (times, faster) = compare(&cases, effort, other);
            let name = format!("b plan, {lists}, {search}");
            report::faster(&name, &times, "pruned", Some(Goal::AtLeast(GOAL)));
            let (median, most) = (faster[faster.len() / 2], faster[faster.len() - 1]);
            report::note(&format!(
                "over the lists: median {median:.1}, most {most:.1}"
            ));
        }
        report_work(lists, &cases);
    }
}
