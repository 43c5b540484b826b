//! The two bounds of jobs that share a level: examples worked out by hand, the bound against a
//! search written from the texts about it, and the planner by the first bound alone.

mod common;

use common::comparisons::plan_by_both_rules;
use common::{
    all_bounds, any_list, bound_instance_by_instance, bound_of_instances, jobs, marked,
    near_full_list, shared_level, two_bounds_by, SettingNumbers, Times,
};
use reference::configuration::{setting_of_record, Setting, NOT_PLACED, ROUND_ROBIN};
use reference::generation::random::Random;
use reference::generation::situations::{Situation, SITUATIONS};
use reference::jobs::Job;
use reference::response_time::{bound, finish_by_search, first_run, second_bound, second_run, End};

/// The first bounds, the second bounds and the bounds of two jobs that share a level.
fn bounds_of_two(first: Times, second: Times, quanta: [u8; 2]) -> [Vec<u16>; 3] {
    all_bounds(&[first, second], &shared_level(&quanta))
}

#[test]
fn the_example_of_the_request() {
    // First bounds 4 + 4·4 and 2 + 1·1, second bounds 4 + 2 for both.
    let [first, second, bounds] = bounds_of_two((4, 20, 20), (2, 20, 20), [1, 4]);
    assert_eq!(first, [20, 3]);
    assert_eq!(second, [6, 6]);
    assert_eq!(bounds, [6, 3]);
    let settings = [[1, 1, 2, 1], [2, 1, 2, 4]];
    let answer = marked(&[(4, 20, 20), (2, 20, 20)], 1, 4, &settings);
    assert_eq!(answer, (true, vec![6, 3]));
}

#[test]
fn a_first_bound_of_0_gives_way_to_the_second() {
    let settings = [[1, 1, 2, 1], [2, 1, 2, 4]];
    for deadline in [6, 7, 19] {
        let times = [(4, 20, deadline), (2, 20, 20)];
        let [first, second, bounds] = bounds_of_two(times[0], times[1], [1, 4]);
        assert_eq!((first, second), (vec![0, 3], vec![6, 6]));
        assert_eq!(bounds, [6, 3]);
        assert_eq!(marked(&times, 1, 4, &settings), (true, vec![6, 3]));
    }
    // With a deadline of 5 both are 0.
    let times = [(4, 20, 5), (2, 20, 20)];
    let [first, second, bounds] = bounds_of_two(times[0], times[1], [1, 4]);
    assert_eq!((first, second), (vec![0, 3], vec![0, 6]));
    assert_eq!(bounds, [0, 3]);
    assert_eq!(marked(&times, 1, 4, &settings), (false, vec![0, 3]));
}

#[test]
fn a_second_bound_of_0_gives_way_to_the_first() {
    // The second worked exam list: 6 + 5 is above 8, and 5 + 3·6 is above 22.
    let [first, second, bounds] = bounds_of_two((6, 8, 8), (5, 22, 22), [3, 1]);
    assert_eq!((first, second), (vec![8, 20], vec![0, 0]));
    assert_eq!(bounds, [8, 20]);
}

#[test]
fn equal_bounds_are_the_bound() {
    // 4 + 2·2 and 4 + 4.
    let [first, second, bounds] = bounds_of_two((4, 20, 20), (4, 20, 20), [2, 2]);
    assert_eq!((first, second), (vec![8, 8], vec![8, 8]));
    assert_eq!(bounds, [8, 8]);
}

#[test]
fn a_neighbour_counts_once_per_period_in_the_second_bound() {
    // 10 + 5·1 = 15 with five releases of the neighbour by 15; its own second bound is above 3.
    let [first, second, bounds] = bounds_of_two((10, 50, 50), (1, 3, 3), [1, 3]);
    assert_eq!((first, second), (vec![40, 2], vec![15, 0]));
    assert_eq!(bounds, [15, 2]);
}

#[test]
fn quanta_play_no_part_in_the_second_bound() {
    for own in [1, 2, 4, 64] {
        for other in 1..=64 {
            let [_, second, _] = bounds_of_two((4, 20, 20), (2, 20, 20), [own, other]);
            assert_eq!(second, [6, 6]);
        }
    }
}

#[test]
fn jobs_above_count_in_both_bounds_and_jobs_below_in_neither() {
    let times = [(1, 5, 5), (4, 40, 40), (2, 40, 40), (3, 60, 60)];
    let levels: [SettingNumbers; 4] = [[1, 1, 1, 0], [2, 2, 2, 1], [3, 2, 2, 4], [4, 3, 1, 0]];
    let settings = levels.map(|numbers| setting_of_record(&numbers));
    // First bounds 4 + 16 + 5·1 and 2 + 1 + 1·1, second bounds 6 + 2·1; the last job has 9 + 3·1.
    let [first, second, bounds] = all_bounds(&times, &settings);
    assert_eq!(first, [1, 25, 4, 12]);
    assert_eq!(second, [0, 8, 8, 0]);
    assert_eq!(bounds, [1, 8, 4, 12]);
    assert_eq!(marked(&times, 1, 4, &levels), (true, bounds));
    // "A job not placed counts as above every placed one."
    let mut not_full = settings;
    (not_full[0].level, not_full[0].policy) = (0, NOT_PLACED);
    let [first, second, bounds] = all_bounds(&times, &not_full);
    assert_eq!(first, [0, 25, 4, 12]);
    assert_eq!(second, [0, 8, 8, 0]);
    assert_eq!(bounds, [0, 8, 4, 12]);
}

/// The end and the last instance of the first run and of the second run of a job.
fn ends(jobs: &[Job], settings: &[Setting], index: usize) -> [(End, u64); 2] {
    [first_run, second_run].map(|run_of_job| {
        let run = run_of_job(jobs, settings, index, finish_by_search);
        (run.end, run.last_instance)
    })
}

#[test]
fn the_lesser_is_taken_of_two_whole_bounds() {
    // The first job's first run finishes at 14 and 23: responses 14 and 11. Its second run finishes
    // at 13, 26, 39, 52 and 56: responses 13, 14, 15, 16 and 8.
    let settings = shared_level(&[3, 5]);
    let bounds_with = |deadline| {
        let times = [(4, 12, deadline), (9, 14, 60)];
        let [first, second, bounds] = all_bounds(&times, &settings);
        let by_instances = bound_instance_by_instance(&jobs(&times), &settings, 0);
        [first[0], second[0], bounds[0], by_instances]
    };
    let times = [(4, 12, 60), (9, 14, 60)];
    assert_eq!(
        ends(&jobs(&times), &settings, 0),
        [(End::Closed, 1), (End::Closed, 4)]
    );
    // Instance by instance the lesser finishes would be 13 and 23, which is by 24.
    for deadline in [16, 17, 60_000] {
        assert_eq!(bounds_with(deadline), [14, 16, 14, 13]);
    }
    for deadline in [14, 15] {
        assert_eq!(bounds_with(deadline), [14, 0, 14, 13]);
    }
    assert_eq!(bounds_with(13), [0, 0, 0, 13]);
    // The second job's first run finishes at 15, 30, 45 and so on, at last at 924, past 64·14. Its
    // second run finishes at 17, 30, 43 and 56: responses 17, 16, 15 and 14.
    assert_eq!(
        ends(&jobs(&times), &settings, 1),
        [(End::StillRunning, 63), (End::Closed, 3)]
    );
    let [first, second, bounds] = all_bounds(&times, &settings);
    assert_eq!((first[1], second[1], bounds[1]), (0, 17, 17));
}

#[test]
fn bounds_agree_with_a_search_of_every_time_for_every_instance() {
    let mut situations = [0; SITUATIONS.len()];
    let mut by_instances = 0;
    for case in 0..6_000 {
        let mut random = Random::of_case(14, case);
        let longest = random.choose(&[5, 12, 30]);
        let (jobs, settings) = any_list(&mut random, longest, |random, cost, period| {
            random.ticks(cost, 4 * period)
        });
        for (index, setting) in settings.iter().enumerate() {
            let found = bound(&jobs, &settings, index);
            let [first, second] = two_bounds_by(bound_of_instances, &jobs, &settings, index);
            let situation = Situation::of_bounds([first, second]);
            let expected = match situation {
                Situation::FirstLess | Situation::FirstAlone | Situation::Equal => first,
                Situation::SecondLess | Situation::SecondAlone => second,
                Situation::Neither => 0,
            };
            assert_eq!(found, expected, "{jobs:?} {settings:?} {index}");
            if setting.policy == ROUND_ROBIN {
                situations[situation as usize] += 1;
                let other = bound_instance_by_instance(&jobs, &settings, index);
                by_instances += usize::from(other != found);
            }
        }
    }
    assert!(
        situations.iter().all(|count| *count >= 100),
        "{situations:?}"
    );
    assert!(by_instances >= 10, "{by_instances} bounds");
}

/// A set of one comes before all larger sets, and what a job of a set has as second bound is what
/// it has as bound alone, with the rest above. So a set of two or more is taken only where each of
/// its second bounds is 0.
#[test]
fn the_planner_answers_the_same_by_the_first_bound_alone() {
    let mut sharing = 0;
    for case in 0..12_000 {
        let mut random = Random::of_case(15, case);
        let jobs = near_full_list(&mut random);
        let plan = plan_by_both_rules(&mut random, &jobs);
        for (index, setting) in plan.settings.iter().enumerate() {
            if setting.policy == ROUND_ROBIN {
                assert_eq!(second_bound(&jobs, &plan.settings, index), 0);
                sharing += 1;
            }
        }
    }
    assert!(sharing >= 300, "{sharing} jobs");
}
