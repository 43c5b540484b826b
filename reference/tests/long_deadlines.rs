//! Deadlines above periods: first runs of instances worked out by hand, and the first bound against
//! searches written from the two texts about it.

mod common;

use common::comparisons::assert_same_runs;
use common::{
    any_list, bound_of_instances, demand, first_bounds, jobs, marked, planned, Planned,
    SettingNumbers, Times,
};
use reference::configuration::{setting_of_record, Setting, NOT_PLACED};
use reference::generation::random::Random;
use reference::jobs::Job;
use reference::response_time::{finish_by_search, first_bound, first_run, End};
use reference::{bounds, key};

/// Two jobs alone on their levels, the first above the second.
const ONE_BELOW_THE_OTHER: [SettingNumbers; 2] = [[1, 1, 1, 0], [2, 2, 1, 0]];

/// The bound of the second job, alone on its level below the first.
fn bound_below(above: Times, below: Times) -> u16 {
    marked(&[above, below], 1, 4, &ONE_BELOW_THE_OTHER).1[1]
}

/// The end and the last instance of the second job's run, alone on its level below the first.
fn run_below(above: Times, below: Times) -> (End, u64) {
    let settings = ONE_BELOW_THE_OTHER.map(|numbers| setting_of_record(&numbers));
    let run = first_run(&jobs(&[above, below]), &settings, 1, finish_by_search);
    (run.end, run.last_instance)
}

#[test]
fn a_run_that_closes_at_instance_0() {
    // 5 + 3 = 8, within the first period of both jobs.
    for deadline in [8, 20, 21, 60_000] {
        assert_eq!(bound_below((3, 10, 10), (5, 20, deadline)), 8);
        assert_eq!(run_below((3, 10, 10), (5, 20, deadline)), (End::Closed, 0));
    }
    assert_eq!(bound_below((3, 10, 10), (5, 20, 7)), 0);
}

#[test]
fn a_run_that_closes_at_instance_6_with_its_largest_response_at_instance_4() {
    // Finishes 114, 202, 316, 404, 518, 606, 694; the last one is the first by its (j+1)·100. The
    // responses are 114, 102, 116, 104, 118, 106, 94.
    let above = (26, 70, 70);
    for deadline in [118, 119, 60_000] {
        assert_eq!(bound_below(above, (62, 100, deadline)), 118);
        assert_eq!(run_below(above, (62, 100, deadline)), (End::Closed, 6));
    }
    // Less than each of the larger responses in turn: the first instance over the deadline is 4,
    // then 2, then 0.
    for (deadline, instance) in [(117, 4), (116, 4), (115, 2), (114, 2), (113, 0)] {
        let expected = (End::OverDeadline, instance);
        assert_eq!(bound_below(above, (62, 100, deadline)), 0);
        assert_eq!(run_below(above, (62, 100, deadline)), expected);
    }
}

#[test]
fn runs_that_close_at_an_instance_up_to_63_or_just_not() {
    // The job above runs once, for c ticks. Instance j finishes at c + 9·(j+1), which is by
    // 10·(j+1) from j + 1 = c on. The first response, c + 9, is the largest.
    for cost in 1..=64 {
        let above = (cost, 60_000, 60_000);
        let expected = (End::Closed, u64::from(cost) - 1);
        assert_eq!(run_below(above, (9, 10, cost + 9)), expected);
        assert_eq!(bound_below(above, (9, 10, cost + 9)), cost + 9);
        assert_eq!(bound_below(above, (9, 10, cost + 8)), 0);
    }
    // With c = 65 instance 63 finishes at 641.
    let above = (65, 60_000, 60_000);
    assert_eq!(run_below(above, (9, 10, 60_000)), (End::StillRunning, 63));
    assert_eq!(bound_below(above, (9, 10, 60_000)), 0);
}

#[test]
fn a_period_equal_to_the_cost() {
    // Nothing above: instance 0 finishes by its period.
    assert_eq!(marked(&[(7, 7, 9)], 1, 4, &[[1, 1, 1, 0]]), (true, vec![7]));
    // One tick from above is never made up for: every response is 8.
    let above = (1, 60_000, 60_000);
    assert_eq!(run_below(above, (7, 7, 8)), (End::StillRunning, 63));
    assert_eq!(run_below(above, (7, 7, 60_000)), (End::StillRunning, 63));
    assert_eq!(bound_below(above, (7, 7, 60_000)), 0);
}

#[test]
fn a_response_that_exceeds_the_deadline_in_the_middle_of_the_run() {
    // The two jobs need more than all the time. Finishes 6, 11, 16, 22, 27, 32, 38; responses 6, 6,
    // 6, 7, 7, 7, 8.
    let above = (1, 4, 4);
    for (deadline, instance) in [(5, 0), (6, 3), (7, 6)] {
        let expected = (End::OverDeadline, instance);
        assert_eq!(run_below(above, (4, 5, deadline)), expected);
        assert_eq!(bound_below(above, (4, 5, deadline)), 0);
    }
    // Instance 63 finishes at 342, which is past 320.
    assert_eq!(run_below(above, (4, 5, 60_000)), (End::StillRunning, 63));
    assert_eq!(bound_below(above, (4, 5, 60_000)), 0);
}

#[test]
fn the_cycles_are_those_of_the_whole_own_work() {
    // C = 3 and quantum 2, the other quantum 2: 3 + 2·2 = 7 and then 6 + 3·2 = 12, by 2·6. Cycles
    // of each C for itself would give 14.
    let first_bounds = |times| first_bounds(&[times, (4, 100, 100)], &[2, 2]);
    assert_eq!(first_bounds((3, 6, 7)), vec![7, 8]);
    assert_eq!(first_bounds((3, 6, 60_000)), vec![7, 8]);
    assert_eq!(first_bounds((3, 6, 6)), vec![0, 8]);
    // A period of 5 is never enough: 7, 12 - 5, 19 - 10 and so on.
    assert_eq!(first_bounds((3, 5, 8)), vec![0, 8]);
}

#[test]
fn a_run_that_closes_at_instance_63_after_three_million_ticks() {
    // C is 400 quanta of 64 and one tick, and the other quantum is 64. The own work of instance j
    // takes 400·(j+1) + 1 cycles, so its response is 51,265 - j, and 51,202 at instance 63.
    let first_bounds = |times| first_bounds(&[times, (1, 60_000, 60_000)], &[64, 64]);
    assert_eq!(first_bounds((25_601, 51_202, 51_265)), vec![51_265, 65]);
    assert_eq!(first_bounds((25_601, 51_202, 51_264)), vec![0, 65]);
    // With a period one tick shorter every response is 51,265, and no instance closes the run.
    assert_eq!(first_bounds((25_601, 51_201, 60_000)), vec![0, 65]);
}

#[test]
fn a_response_that_exceeds_the_deadline_at_instance_63() {
    // A tick from above in each 60,000: the response is 30,033 at instance 63, whose finish is
    // 1,920,033, and not above 30,032 before.
    let above = (1, 60_000, 60_000);
    let run_with = |deadline| run_below(above, (30_000, 30_000, deadline));
    assert_eq!(run_with(30_031), (End::OverDeadline, 61));
    assert_eq!(run_with(30_032), (End::OverDeadline, 63));
    assert_eq!(run_with(30_033), (End::StillRunning, 63));
    assert_eq!(bound_below(above, (30_000, 30_000, 60_000)), 0);
}

#[test]
fn a_job_not_placed_is_above_every_instance() {
    let block = common::job_block(&[(26, 70, 70), (62, 100, 118)]);
    let mut output = [9; 4];
    let done = bounds(&block, 1, 4, &[1, 0, 0, 0, 2, 1, 1, 0], &mut output);
    assert_eq!((done, output), (Ok(()), [0, 0, 0, 118]));
}

#[test]
fn the_planner_takes_a_job_by_its_whole_run() {
    // The second job has the longer period, so it is considered first, and it fits below the first.
    let expected = Planned {
        placed: 3,
        considered: 2,
        settings: ONE_BELOW_THE_OTHER.to_vec(),
        bounds: vec![26, 118],
    };
    assert_eq!(planned(&[(26, 70, 70), (62, 100, 118)], 1, 4), expected);
    // With one tick less it does not, and neither does the first below it: 26 + 62 is above 70.
    assert_eq!(planned(&[(26, 70, 70), (62, 100, 117)], 1, 4).placed, 0);
}

#[test]
fn the_planner_shares_a_level_where_a_later_instance_is_over_the_deadline() {
    // The second job alone below the first finishes at 7 and 14: the response 14 - 6 is above 7.
    // On one level with quanta 2 and 2 it finishes at 7 and 12.
    let times = [(4, 8, 8), (3, 6, 7)];
    let answer = |low, high| {
        let plan = planned(&times, low, high);
        let quanta: Vec<u8> = plan.settings.iter().map(|setting| setting[3]).collect();
        (plan.placed, plan.considered, quanta, plan.bounds)
    };
    assert_eq!(answer(2, 4), (3, 3, vec![2, 2], vec![8, 7]));
    assert_eq!(answer(1, 4), (3, 3, vec![1, 1], vec![8, 6]));
    assert_eq!(answer(3, 4), (0, 3, vec![0, 0], vec![0, 0]));
    let text = "1 2 2 1 8\n2 2 2 1 6\nplaced 2 of 2\n";
    assert_eq!(key(&common::job_block(&times)), text);
}

/// "The bound is the least t from 1 to D whose demand equals t. If there is none, the bound is 0."
fn bound_of_one_instance(jobs: &[Job], settings: &[Setting], index: usize) -> u16 {
    let cost = u64::from(jobs[index].cost);
    (1..=jobs[index].deadline)
        .find(|time| {
            let time = u64::from(*time);
            demand(jobs, settings, index, cost, time) == time
        })
        .unwrap_or(0)
}

/// How many first bounds are 0, up to the period, and above it.
#[derive(Debug, Default)]
struct BoundCounts {
    zero: usize,
    up_to_period: usize,
    above_period: usize,
}

impl BoundCounts {
    /// Compares two first bounds for every placed job of a list and counts them.
    fn compare(
        &mut self,
        jobs: &[Job],
        settings: &[Setting],
        other: fn(&[Job], &[Setting], usize) -> u16,
    ) {
        let is_placed = |index: &usize| settings[*index].policy != NOT_PLACED;
        for index in (0..jobs.len()).filter(is_placed) {
            let found = first_bound(jobs, settings, index);
            let expected = other(jobs, settings, index);
            assert_eq!(found, expected, "{jobs:?} {settings:?} {index}");
            *match found {
                0 => &mut self.zero,
                _ if found <= jobs[index].period => &mut self.up_to_period,
                _ => &mut self.above_period,
            } += 1;
        }
    }
}

#[test]
fn lists_with_deadlines_up_to_periods_have_first_bounds_of_one_instance() {
    let mut counts = BoundCounts::default();
    for case in 0..6_000 {
        let mut random = Random::of_case(11, case);
        let longest = random.choose(&[5, 30, 200, 3_000, 60_000]);
        let (jobs, settings) = any_list(&mut random, longest, |random, cost, period| {
            let shorter = random.ticks(cost, period);
            random.choose(&[period, shorter])
        });
        counts.compare(&jobs, &settings, bound_of_one_instance);
    }
    assert!(counts.zero >= 2_000, "{counts:?}");
    assert!(counts.up_to_period >= 5_000, "{counts:?}");
    assert_eq!(counts.above_period, 0);
}

#[test]
fn first_bounds_agree_with_a_search_of_every_time_for_every_instance() {
    let mut counts = BoundCounts::default();
    for case in 0..6_000 {
        let mut random = Random::of_case(12, case);
        let longest = random.choose(&[5, 12, 30]);
        let (jobs, settings) = any_list(&mut random, longest, |random, cost, period| {
            random.ticks(cost, 4 * period)
        });
        counts.compare(&jobs, &settings, bound_of_instances);
    }
    assert!(counts.zero >= 2_000, "{counts:?}");
    assert!(counts.up_to_period >= 2_000, "{counts:?}");
    assert!(counts.above_period >= 500, "{counts:?}");
}

#[test]
fn runs_by_the_recurrence_are_the_runs_by_the_search() {
    for case in 0..3_000 {
        let mut random = Random::of_case(13, case);
        let longest = random.choose(&[5, 30, 200, 3_000]);
        let (jobs, settings) = any_list(&mut random, longest, |random, cost, period| {
            random.ticks(cost, 20 * period)
        });
        assert_same_runs(&jobs, &settings);
    }
}
