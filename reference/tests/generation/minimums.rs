//! How much the stored cases hold of what they are drawn for.

use std::sync::OnceLock;

use reference::entries::{
    place_of_entry, BOUNDS, BREAKDOWN, EDIT, ENTRIES, GATE_MARK, GATE_PLAN, KEY, MARK, PLAN,
    READ_CONFIGURATION, READ_JOBS, SAME_BYTES, WRITE_CONFIGURATION, WRITE_JOBS,
};
use reference::generation::effects::Effect;
use reference::generation::long_deadlines::has_long_deadline;
use reference::generation::rounds::Kind;
use reference::generation::situation_counts::SituationCounts;
use reference::generation::summary::Summary;
use reference::generation::{
    cases_of_kind, place_of_kind, BREAKDOWNS, DELAYS, LIGHT_NEIGHBOURS, LONG_DEADLINES,
    SHORT_DEADLINES,
};
use reference::jobs::Job;
use reference::refusal::REFUSALS;
use reference::response_time::bound;

use crate::{answered_bounds, job_records, judged_jobs, stored, stored_of_kind};

/// What the stored cases hold.
pub fn summary() -> &'static Summary {
    static SUMMARY: OnceLock<Summary> = OnceLock::new();
    SUMMARY.get_or_init(|| Summary::of_cases(stored()))
}

/// The place of an entry.
fn place(entry: u8) -> usize {
    place_of_entry(entry).expect("an entry has a place")
}

/// The counts of policy 2 jobs in a kind's cases of bounds, mark, plan, breakdown, gate_plan and
/// gate_mark.
fn neighbours_of_kind(kind: &Kind) -> [SituationCounts; 6] {
    summary().kinds[place_of_kind(kind)].neighbours.entries
}

#[test]
fn minimums_by_entry_and_refusal() {
    let summary = summary();
    for (entry, counts) in ENTRIES.iter().zip(&summary.entries) {
        assert!(counts.accepted >= 50, "{}: {counts:?}", entry.name);
        let has_refusals = entry.number != SAME_BYTES;
        assert!(
            !has_refusals || counts.refused >= 50,
            "{}: {counts:?}",
            entry.name
        );
    }
    for entry in [MARK, SAME_BYTES, GATE_MARK] {
        let counts = &summary.entries[place(entry)];
        let answered_no = counts.accepted - counts.answered_yes;
        assert!(counts.answered_yes >= 40 && answered_no >= 40, "{counts:?}");
    }
    for (refusal, counts) in REFUSALS.iter().zip(&summary.refusals) {
        let number = refusal.number();
        assert!(counts.all >= 60, "refusal {number}: {counts:?}");
        assert!(
            number == 12 || counts.with_later >= 20,
            "refusal {number}: {counts:?}"
        );
        let in_records = matches!(number, 2 | 3 | 8 | 9 | 14);
        assert!(
            !in_records || counts.with_later_before >= 5,
            "refusal {number}: {counts:?}"
        );
    }
}

#[test]
fn minimums_of_the_planner() {
    let plans = &summary().plans;
    assert!(plans.placed_alone >= 60, "{plans:?}");
    assert!(
        plans.placed_in_pairs + plans.placed_in_larger_layers >= 100,
        "{plans:?}"
    );
    assert!(plans.placed_in_larger_layers >= 20, "{plans:?}");
    assert!(
        plans.stopped_short + plans.stopped_short_sharing >= 100,
        "{plans:?}"
    );
    assert!(plans.stopped_short_sharing >= 20, "{plans:?}");
    assert!(plans.nothing_placed >= 60, "{plans:?}");
    assert!(plans.with_longest_period >= 60, "{plans:?}");
    assert!(plans.by_jobs.iter().all(|count| *count >= 20), "{plans:?}");
    assert!(plans.by_width.iter().all(|count| *count >= 20), "{plans:?}");
}

#[test]
fn minimums_of_runs() {
    let [bounds, mark, plan, breakdown, ..] = summary().long_deadlines.entries;
    for counts in [bounds, mark] {
        assert!(counts.cases >= 150, "{counts:?}");
        assert!(counts.closed_at_first >= 50, "{counts:?}");
        assert!(counts.closed_at_second >= 30, "{counts:?}");
        assert!(counts.closed_later >= 50, "{counts:?}");
        assert!(counts.closed_at_last >= 10, "{counts:?}");
        assert!(counts.not_closed >= 20, "{counts:?}");
        assert!(counts.over_deadline_at_first >= 20, "{counts:?}");
        assert!(counts.over_deadline_later >= 20, "{counts:?}");
        assert!(counts.largest_not_last >= 100, "{counts:?}");
        assert!(counts.largest_inside >= 20, "{counts:?}");
        assert!(counts.long_finish >= 30, "{counts:?}");
        assert!(counts.longer_finish >= 10, "{counts:?}");
        assert!(counts.longest_deadline >= 30, "{counts:?}");
        assert!(counts.period_is_cost >= 10, "{counts:?}");
    }
    assert!(plan.cases >= 200 && plan.cases_shared >= 60, "{plan:?}");
    assert!(plan.closed_at_second >= 30, "{plan:?}");
    assert!(plan.closed_later >= 30, "{plan:?}");
    assert!(plan.closed_at_last >= 3, "{plan:?}");
    assert!(plan.largest_inside >= 20, "{plan:?}");
    assert!(plan.long_finish >= 10, "{plan:?}");
    assert!(breakdown.closed_later >= 500, "{breakdown:?}");
    assert!(breakdown.closed_at_last >= 10, "{breakdown:?}");
    assert!(breakdown.not_closed >= 100, "{breakdown:?}");
    assert!(breakdown.largest_inside >= 150, "{breakdown:?}");
    assert!(breakdown.long_finish >= 90, "{breakdown:?}");
}

#[test]
fn minimums_of_situations() {
    let [bounds, mark, plan, ..] = neighbours_of_kind(&LIGHT_NEIGHBOURS);
    for counts in [bounds, mark] {
        assert!(counts.cases >= 300, "{counts:?}");
        assert!(counts.jobs.iter().all(|count| *count >= 60), "{counts:?}");
        assert!(
            counts.late_jobs.iter().all(|count| *count >= 30),
            "{counts:?}"
        );
        assert!(counts.closed_apart >= 30, "{counts:?}");
    }
    assert!(mark.passing_by_second >= 60, "{mark:?}");
    assert!(plan.cases >= 20, "{plan:?}");
    let [.., breakdown, _, _] = neighbours_of_kind(&BREAKDOWNS);
    let mut late_jobs = breakdown.late_jobs.iter();
    assert!(late_jobs.all(|count| *count >= 40), "{breakdown:?}");
    assert!(breakdown.closed_apart >= 200, "{breakdown:?}");
}

#[test]
fn minimums_of_lists_with_delays() {
    let delays = &summary().delays;
    for (entry, least) in [
        (READ_JOBS, 25),
        (WRITE_JOBS, 25),
        (READ_CONFIGURATION, 15),
        (WRITE_CONFIGURATION, 15),
        (BOUNDS, 200),
        (MARK, 150),
        (PLAN, 150),
        (EDIT, 35),
        (KEY, 30),
        (BREAKDOWN, 400),
        (GATE_PLAN, 50),
        (GATE_MARK, 80),
    ] {
        let lists = delays.lists[place(entry)];
        assert!(lists >= least, "entry {entry}: {lists} lists");
    }
    for entry in [BOUNDS, MARK, PLAN, KEY, BREAKDOWN, GATE_PLAN, GATE_MARK].map(place) {
        let (lists, mattering) = (delays.lists[entry], delays.mattering[entry]);
        assert!(10 * mattering >= 9 * lists, "{mattering} of {lists}");
    }
}

#[test]
fn minimums_of_effects_of_delays() {
    let [bounds, mark, plan, breakdown, ..] = summary().delays.effects.entries;
    for counts in [bounds, mark, breakdown] {
        assert!(counts.jobs >= 500, "{counts:?}");
        assert!(counts.longest >= 50, "{counts:?}");
        assert!(
            counts.effects.iter().all(|count| *count >= 10),
            "{counts:?}"
        );
    }
    let [bounds, mark, ..] = neighbours_of_kind(&DELAYS);
    for counts in [bounds, mark] {
        assert!(counts.jobs.iter().all(|count| *count >= 5), "{counts:?}");
    }
    assert!(mark.passing_by_second >= 10, "{mark:?}");
    assert!(plan.jobs >= 300 && plan.longest >= 15, "{plan:?}");
    assert!(
        plan.effects[Effect::RaisedByAbove as usize] >= 80,
        "{plan:?}"
    );
    assert!(plan.effects[Effect::KeptOpen as usize] >= 50, "{plan:?}");
}

#[test]
fn plans_of_lists_with_delays_have_every_outcome() {
    let mut outcomes = [0; 3];
    for case in stored_of_kind(&DELAYS) {
        if case.input.head == PLAN && case.output.head == 0 {
            let whole = (1 << job_records(case).len()) - 1;
            outcomes[match case.output.numbers[0] {
                0 => 0,
                placed if placed < whole => 1,
                _ => 2,
            }] += 1;
        }
    }
    assert!(outcomes.iter().all(|count| *count >= 20), "{outcomes:?}");
}

#[test]
fn lists_have_delays_where_they_are_meant_to() {
    let delayed = |case| {
        job_records(case)
            .iter()
            .filter(|job| job.delay != 0)
            .count()
    };
    for kind in [&SHORT_DEADLINES, &LONG_DEADLINES, &LIGHT_NEIGHBOURS] {
        for case in stored_of_kind(kind) {
            let may_be = !matches!(case.input.head, WRITE_JOBS | EDIT);
            assert!(delayed(case) <= usize::from(may_be), "{case:?}");
        }
    }
    for case in stored_of_kind(&DELAYS) {
        assert!(
            delayed(case) > 0 || job_records(case).is_empty(),
            "{case:?}"
        );
    }
}

#[test]
fn deadlines_are_above_periods_in_two_thirds_of_the_lists_meant_for_it() {
    for (number, case) in stored_of_kind(&SHORT_DEADLINES).iter().enumerate() {
        let jobs = judged_jobs(case);
        let is_one_above = |job: &Job| job.deadline - job.period == 1;
        let mut long = jobs.iter().filter(|job| job.deadline > job.period);
        assert!(long.all(is_one_above), "case {number}");
    }
    let lists = stored_of_kind(&LONG_DEADLINES).iter().map(judged_jobs);
    let lists: Vec<Vec<Job>> = lists.filter(|jobs| !jobs.is_empty()).collect();
    let long = lists.iter().filter(|jobs| has_long_deadline(jobs)).count();
    assert!(3 * long >= 2 * lists.len(), "{long} of {}", lists.len());
}

#[test]
fn refusal_5_comes_with_each_of_its_reasons_alone() {
    let mut alone = [0; 5];
    for case in &stored()[cases_of_kind(&LONG_DEADLINES).start..] {
        let mut reasons = [false; 5];
        for job in judged_jobs(case) {
            reasons[0] |= job.cost == 0;
            reasons[1] |= job.cost > job.deadline;
            reasons[2] |= job.cost > job.period;
            reasons[3] |= job.period > 60_000;
            reasons[4] |= job.deadline > 60_000;
        }
        let is_alone = reasons.iter().filter(|applies| **applies).count() == 1;
        for (count, applies) in alone.iter_mut().zip(reasons) {
            *count += usize::from(is_alone && applies);
        }
    }
    assert!(alone.iter().all(|count| *count >= 10), "{alone:?}");
}

#[test]
fn deadlines_stand_at_the_bound_and_one_below_it() {
    let (mut equal, mut missed_by_one) = (0, 0);
    for (jobs, settings, _) in stored().iter().filter_map(answered_bounds) {
        for (index, job) in jobs.iter().enumerate() {
            let mut longer = jobs.clone();
            longer[index].deadline = job.deadline.saturating_add(1);
            let bound = bound(&longer, &settings, index);
            equal += usize::from(bound == job.deadline);
            missed_by_one += usize::from(bound == longer[index].deadline);
        }
    }
    assert!(equal >= 100, "{equal} bounds");
    assert!(missed_by_one >= 30, "{missed_by_one} bounds");
}

#[test]
fn the_key_program_is_given_blocks_that_are_too_long() {
    for length in [72, 80] {
        let mut keys = stored().iter().filter(|case| case.input.head == KEY);
        let is_given = keys.any(|case| case.input.blocks[0].len() == length);
        assert!(is_given, "{length} bytes");
    }
}

#[test]
fn edits_reach_every_place_and_every_length() {
    let mut places = [0; 8];
    let mut lengths = [0; 11];
    for case in stored().iter().filter(|case| case.input.head == EDIT) {
        lengths[job_records(case).len()] += 1;
        if case.output.head == 0 {
            places[usize::from(case.input.numbers[0])] += 1;
        }
    }
    assert!(places.iter().all(|count| *count > 0), "{places:?}");
    assert!(lengths.iter().all(|count| *count > 0), "{lengths:?}");
}
