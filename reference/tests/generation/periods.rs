//! What the cases that are drawn for the order of the sets must hold, and what is the same in both
//! orders.

use reference::configuration::NOT_PLACED;
use reference::entries::{KEY, PLAN};
use reference::generation::by_entry::Answered;
use reference::generation::order_counts::OrderCounts;
use reference::generation::orders::WRONG_ORDERS;
use reference::generation::period_shapes::SHAPES;
use reference::generation::plan_counts::PlanCounts;
use reference::generation::{place_of_kind, PERIODS};
use reference::jobs::records_of_jobs;
use reference::key::{text_of_plan, KEY_RANGE};
use reference::planner::{plan_jobs, plan_jobs_by, Plan, Rules, RULES};
use reference::sets::by_number;

use crate::common::{jobs, Times};
use crate::minimums::summary;
use crate::{accepted, cases_of, job_records, planned, stored};

/// The rules with 01's order of sets.
const SCOPE_RULES: Rules = Rules {
    order: by_number,
    ..RULES
};

/// How many cases of the kind are to tell a wrong order, by its place.
const LEAST_TOLD: [usize; WRONG_ORDERS.len()] = [
    500, 350, 150, 600, 200, 150, 70, 400, 250, 100, 50, 450, 300, 150, 40, 500, 250,
];

/// The counts of the kind's cases of the planner.
fn counts() -> &'static OrderCounts {
    &summary().kinds[place_of_kind(&PERIODS)].orders
}

#[test]
fn each_wrong_order_is_told_by_many_plans() {
    for (place, (name, _)) in WRONG_ORDERS.iter().enumerate() {
        let told = counts().told[place];
        assert!(told >= LEAST_TOLD[place], "{name}: {told} plans");
    }
    let decided = counts().decided_by_number;
    assert!(decided >= 60, "{decided} plans");
}

#[test]
fn periods_stand_to_each_other_in_every_way() {
    let counts = counts();
    for shape in SHAPES {
        let shown = counts.shapes[shape as usize];
        assert!(shown >= 70, "{shape:?}: {shown} lists");
    }
    assert!(counts.with_delay >= 250, "{counts:?}");
    assert!(counts.with_long_deadline >= 350, "{counts:?}");
}

#[test]
fn plans_of_the_kind_have_every_outcome() {
    let mut plans = PlanCounts::default();
    for case in accepted(&PERIODS, PLAN) {
        let (_, answered) = Answered::of_case(case).expect("plans are counted");
        plans.count(&answered);
    }
    assert!(plans.placed_alone >= 100, "{plans:?}");
    assert!(plans.placed_in_pairs >= 150, "{plans:?}");
    assert!(plans.placed_in_larger_layers >= 150, "{plans:?}");
    assert!(plans.stopped_short >= 20, "{plans:?}");
    assert!(plans.stopped_short_sharing >= 80, "{plans:?}");
    assert!(plans.with_longest_period >= 50, "{plans:?}");
    assert!(
        plans.by_jobs[1..].iter().all(|count| *count >= 20),
        "{plans:?}"
    );
    assert!(plans.by_width.iter().all(|count| *count >= 50), "{plans:?}");
}

#[test]
fn keys_of_the_kind_differ_in_the_order_of_the_scope() {
    let keys = accepted(&PERIODS, KEY);
    let differing = keys.filter(|case| {
        let plan = plan_jobs_by(&job_records(case), KEY_RANGE, SCOPE_RULES);
        text_of_plan(&plan).as_bytes() != case.output.blocks[0]
    });
    let differing = differing.count();
    assert!(differing >= 60, "{differing} keys");
}

/// The planner's lists among K1 to K9, with the highest quantum and the count of sets considered.
const EXAM_LISTS: [(&[Times], u16, u16); 7] = [
    (&[(2, 5, 5)], 4, 1),
    (&[(6, 8, 8), (5, 22, 22)], 4, 3),
    (&[(6, 8, 8), (5, 22, 22)], 2, 3),
    (&[(1, 4, 4), (2, 6, 6), (3, 12, 12)], 4, 3),
    (&[(6, 8, 8), (5, 23, 23)], 4, 2),
    (&[(1, 1, 1), (1, 1, 1)], 4, 3),
    (&[(6, 8, 8), (5, 22, 22), (1, 100, 100)], 2, 4),
];

#[test]
fn the_exam_lists_are_among_the_calls() {
    for (times, highest, considered) in EXAM_LISTS {
        let block = records_of_jobs(&jobs(times));
        let plans: Vec<_> = cases_of(&PERIODS, PLAN)
            .filter(|case| case.input.numbers == [1, highest] && case.input.blocks[0] == block)
            .collect();
        assert!(plans.len() >= 2, "{times:?}");
        assert!(plans
            .iter()
            .all(|case| case.output.numbers[1] == considered));
        let mut keys = cases_of(&PERIODS, KEY);
        assert!(keys.any(|case| case.input.blocks[0] == block), "{times:?}");
    }
}

/// "Which set of jobs ends up placed is the same under both orders".
#[test]
fn the_same_jobs_are_placed_in_both_orders() {
    let are_left = |plan: &Plan| -> Vec<bool> {
        let settings = plan.settings.iter();
        settings
            .map(|setting| setting.policy == NOT_PLACED)
            .collect()
    };
    let (mut compared, mut differing) = (0, 0);
    for (number, case) in stored().iter().enumerate() {
        let Some((jobs, range)) = planned(case) else {
            continue;
        };
        let plan = plan_jobs(&jobs, range);
        let by_scope = plan_jobs_by(&jobs, range, SCOPE_RULES);
        assert_eq!(plan.placed, by_scope.placed, "case {number}");
        assert_eq!(are_left(&plan), are_left(&by_scope), "case {number}");
        compared += 1;
        differing += usize::from(plan != by_scope);
    }
    assert!(compared >= 2_000, "{compared} plans");
    assert!(differing >= 1_000, "{differing} plans");
}
