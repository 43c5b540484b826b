//! The planner against a search that judges every set by the bounds of whole configurations, with
//! every list of quanta tried and nothing kept from one to the next.

mod common;

use std::cmp::Ordering;

use common::near_full_list;
use reference::configuration::{judge_range, not_placed, QuantumRange, Setting};
use reference::entries::{GATE_PLAN, PLAN};
use reference::generation::delays::has_delay;
use reference::generation::long_deadlines::has_long_deadline;
use reference::generation::random::Random;
use reference::generation::rounds::Kind;
use reference::generation::{
    cases_of_kind, entry_of_case, input_of_case, DELAYS, LIGHT_NEIGHBOURS, LONG_DEADLINES, PERIODS,
    SHORT_DEADLINES, START_GATE,
};
use reference::jobs::{jobs_of_block, Job};
use reference::planner::{place, plan_jobs, plan_jobs_by, Plan, Rules, RULES};
use reference::quanta::{next_quanta_list, Layer};
use reference::response_time::{
    bound, bounds_of_settings, first_bound, jobs_above, second_bound, INSTANCES,
};
use reference::sets::{by_number, members_of_set, whole_set};

/// The settings with the set taken at the level, if some quanta serve each of its jobs.
fn settings_with_set(
    jobs: &[Job],
    range: QuantumRange,
    settings: &[Setting],
    set: u8,
    level: u8,
) -> Option<Vec<Setting>> {
    let members = members_of_set(set);
    let mut trial = settings.to_vec();
    let (range, lowest) = match members.len() {
        1 => (
            QuantumRange {
                lowest: 0,
                highest: 0,
            },
            0,
        ),
        _ => (range, range.lowest),
    };
    let mut quanta = vec![lowest; members.len()];
    loop {
        place(&mut trial, &members, level, &quanta);
        if members
            .iter()
            .all(|member| bound(jobs, &trial, *member) != 0)
        {
            return Some(trial);
        }
        if !next_quanta_list(&mut quanta, range) {
            return None;
        }
    }
}

/// Which of two sets of jobs of a list is considered first.
type Compare = fn(&[Job], u8, u8) -> Ordering;

/// By 01: "smaller ones first", "among sets of one size the smaller number is first".
fn by_scope(_: &[Job], one: u8, other: u8) -> Ordering {
    let by_size = one.count_ones().cmp(&other.count_ones());
    by_size.then(one.cmp(&other))
}

/// By E7: "by size, then by larger sum of periods, then by smaller set number".
fn by_request(jobs: &[Job], one: u8, other: u8) -> Ordering {
    let sum = |set: u8| -> u64 {
        let places = (0..jobs.len()).filter(|place| set >> place & 1 == 1);
        places.map(|place| u64::from(jobs[place].period)).sum()
    };
    let by_size = one.count_ones().cmp(&other.count_ones());
    let by_sum = sum(other).cmp(&sum(one));
    by_size.then(by_sum).then(one.cmp(&other))
}

fn literal_plan(jobs: &[Job], range: QuantumRange, compare: Compare) -> Plan {
    let mut settings: Vec<Setting> = jobs.iter().map(not_placed).collect();
    let (mut rest, mut level, mut considered) = (whole_set(jobs), jobs.len() as u8, 0);
    'levels: while rest != 0 {
        let mut sets: Vec<u8> = (1..=rest).filter(|set| set & !rest == 0).collect();
        sets.sort_by(|one, other| compare(jobs, *one, *other));
        for set in sets {
            considered += 1;
            if let Some(taken) = settings_with_set(jobs, range, &settings, set, level) {
                settings = taken;
                rest &= !set;
                level -= 1;
                continue 'levels;
            }
        }
        break;
    }
    Plan {
        bounds: bounds_of_settings(jobs, &settings),
        settings,
        placed: whole_set(jobs) & !rest,
        considered,
    }
}

/// The last time at which a finish of a job is sought.
fn last_time(job: &Job) -> u64 {
    let (period, deadline) = (u64::from(job.period), u64::from(job.deadline));
    if deadline > period {
        (INSTANCES - 1) * period + deadline
    } else {
        deadline
    }
}

/// The jobs and the range of a case, if it is one of a planner's that the literal search affords.
fn affordable_case(case: usize) -> Option<(Vec<Job>, QuantumRange)> {
    if !matches!(entry_of_case(case), PLAN | GATE_PLAN) {
        return None;
    }
    let input = input_of_case(7, case);
    let ([lowest, highest], [jobs, _, _]) = input.parts()?;
    let jobs = jobs_of_block(jobs).ok()?;
    let range = judge_range(lowest, highest).ok()?;
    let lists_of_one_job = u64::from(range.highest - range.lowest) + 2;
    let longest = jobs.iter().map(last_time).max()?;
    let steps = lists_of_one_job
        .saturating_pow(jobs.len() as u32)
        .saturating_mul(longest);
    (steps < 40_000_000).then_some((jobs, range))
}

/// Compares the planner with the literal search for the cases of a kind, and answers how many of
/// the lists compared are as wanted.
fn compare(kind: &Kind, is_wanted: fn(&[Job]) -> bool) -> usize {
    let mut wanted = 0;
    for case in cases_of_kind(kind) {
        if let Some((jobs, range)) = affordable_case(case) {
            let expected = literal_plan(&jobs, range, by_request);
            assert_eq!(plan_jobs(&jobs, range), expected);
            wanted += usize::from(is_wanted(&jobs));
        }
    }
    wanted
}

#[test]
fn the_planner_agrees_with_the_literal_search() {
    let compared = compare(&SHORT_DEADLINES, |_| true);
    assert!(compared >= 300, "{compared} lists compared");
}

#[test]
fn the_planner_agrees_with_the_literal_search_on_long_deadlines() {
    let with_long_deadline = compare(&LONG_DEADLINES, has_long_deadline);
    assert!(with_long_deadline >= 100, "{with_long_deadline} lists");
}

#[test]
fn the_planner_agrees_with_the_literal_search_on_light_neighbours() {
    let compared = compare(&LIGHT_NEIGHBOURS, |_| true);
    assert!(compared >= 30, "{compared} lists compared");
}

#[test]
fn the_planner_agrees_with_the_literal_search_on_delays() {
    let with_delay = compare(&DELAYS, has_delay);
    assert!(with_delay >= 60, "{with_delay} lists");
}

#[test]
fn the_planner_agrees_with_the_literal_search_on_periods() {
    let compared = compare(&PERIODS, |_| true);
    assert!(compared >= 200, "{compared} lists compared");
}

#[test]
fn the_planner_agrees_with_the_literal_search_at_the_gate() {
    let of_gate = compare(&START_GATE, |jobs| jobs.len() <= 4);
    assert!(of_gate >= 100, "{of_gate} lists");
}

#[test]
fn the_planner_agrees_with_the_literal_search_in_the_order_of_the_scope() {
    let rules = Rules {
        order: by_number,
        ..RULES
    };
    let mut differing = 0;
    for (jobs, range) in cases_of_kind(&PERIODS).filter_map(affordable_case) {
        let plan = plan_jobs_by(&jobs, range, rules);
        assert_eq!(plan, literal_plan(&jobs, range, by_scope));
        differing += usize::from(plan != plan_jobs(&jobs, range));
    }
    assert!(differing >= 150, "{differing} lists");
}

/// The quanta that a layer's search finds for the first two jobs of a list or more, with the rest
/// above.
fn quanta_of_layer(jobs: &[Job], count: usize, range: QuantumRange) -> Option<Vec<u8>> {
    let mut settings: Vec<Setting> = jobs.iter().map(not_placed).collect();
    let members: Vec<usize> = (0..count).collect();
    place(&mut settings, &members, 1, &vec![range.lowest; count]);
    let has_second_bound = members
        .iter()
        .map(|member| second_bound(jobs, &settings, *member) != 0)
        .collect();
    let above = jobs_above(jobs, &settings, 0);
    let mut layer = Layer::new(jobs[..count].to_vec(), above, has_second_bound);
    let mut lists_left = u64::MAX;
    layer
        .smallest_quanta(range, &mut lists_left)
        .expect("no search tries that many lists")
}

/// The planner tries sets of two or more only where all their second bounds are 0. Here a layer is
/// searched also where some are not.
#[test]
fn a_layer_takes_the_first_list_that_serves_by_either_bound() {
    let (mut by_first, mut by_second, mut by_none) = (0, 0, 0);
    for case in 0..3_000 {
        let mut random = Random::of_case(16, case);
        let jobs = near_full_list(&mut random);
        let count = random.between(2, jobs.len());
        let lowest = random.byte(1, 4);
        let range = QuantumRange {
            lowest,
            highest: random.byte(lowest, 6),
        };
        let none_placed: Vec<Setting> = jobs.iter().map(not_placed).collect();
        let taken = settings_with_set(&jobs, range, &none_placed, (1 << count) - 1, 1);
        let quanta = taken.as_ref().map(|settings| {
            let members = settings[..count].iter();
            members.map(|setting| setting.quantum).collect()
        });
        assert_eq!(quanta_of_layer(&jobs, count, range), quanta, "{jobs:?}");
        let Some(settings) = taken else {
            by_none += 1;
            continue;
        };
        if (0..count).all(|member| first_bound(&jobs, &settings, member) != 0) {
            by_first += 1;
        } else {
            by_second += 1;
        }
    }
    let counts = [by_first, by_second, by_none];
    assert!(counts.iter().all(|count| *count >= 200), "{counts:?}");
}
