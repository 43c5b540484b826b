//! Delays: the bound against searches written from the texts about it, with and without delays.

mod common;

use common::comparisons::{assert_same_runs, plan_by_both_rules};
use common::{any_delayed_list, bound_of_instances, near_full_list, two_bounds_by};
use reference::configuration::{Setting, NOT_PLACED, ROUND_ROBIN};
use reference::generation::delays::has_delay;
use reference::generation::effects::{without_delays, without_own_delay};
use reference::generation::long_deadlines::{first_run_by_recurrence, second_run_by_recurrence};
use reference::generation::random::Random;
use reference::generation::situations::{Situation, SITUATIONS};
use reference::jobs::Job;
use reference::response_time::{bound, lesser_bound, End};

/// The first bound by the texts before delays, every time being tried for every instance.
fn first_bound_before_delays(jobs: &[Job], settings: &[Setting], index: usize) -> u16 {
    let job = &jobs[index];
    let (period, deadline) = (u64::from(job.period), u64::from(job.deadline));
    let own = &settings[index];
    let others = || jobs.iter().zip(settings);
    let on_level = others().filter(|(_, setting)| setting.level == own.level);
    let all_quanta: u64 = on_level
        .map(|(_, setting)| u64::from(setting.quantum))
        .sum();
    let mut largest = 0;
    for instance in 0..64 {
        let own_work = (instance + 1) * u64::from(job.cost);
        let cycles = own_work.div_ceil(u64::from(own.quantum.max(1)));
        let demand = |time: u64| {
            let above = others().filter(|(_, setting)| setting.level < own.level);
            let releases =
                above.map(|(job, _)| time.div_ceil(job.period.into()) * u64::from(job.cost));
            own_work + cycles * (all_quanta - u64::from(own.quantum)) + releases.sum::<u64>()
        };
        let latest = instance * period + deadline;
        let Some(finish) = (1..=latest).find(|time| demand(*time) == *time) else {
            return 0;
        };
        largest = largest.max(finish - instance * period);
        if finish <= (instance + 1) * period {
            return largest as u16;
        }
    }
    0
}

#[test]
fn without_delays_the_bounds_are_those_before_delays() {
    let mut situations = [0; SITUATIONS.len()];
    for case in 0..4_000 {
        let mut random = Random::of_case(17, case);
        let (jobs, settings) = any_delayed_list(&mut random);
        let jobs = without_delays(&jobs);
        for index in 0..jobs.len() {
            let two = two_bounds_by(first_bound_before_delays, &jobs, &settings, index);
            let found = bound(&jobs, &settings, index);
            assert_eq!(
                found,
                lesser_bound(two[0], two[1]),
                "{jobs:?} {settings:?} {index}"
            );
            if settings[index].policy == ROUND_ROBIN {
                situations[Situation::of_bounds(two) as usize] += 1;
            }
        }
    }
    assert!(
        situations.iter().all(|count| *count >= 50),
        "{situations:?}"
    );
}

#[test]
fn bounds_agree_with_a_search_of_every_time_for_every_instance() {
    let mut situations = [0; SITUATIONS.len()];
    let (mut differing, mut above_period) = (0, 0);
    for case in 0..6_000 {
        let mut random = Random::of_case(18, case);
        let (jobs, settings) = any_delayed_list(&mut random);
        let without = without_delays(&jobs);
        for (index, job) in jobs.iter().enumerate() {
            let two = two_bounds_by(bound_of_instances, &jobs, &settings, index);
            let found = bound(&jobs, &settings, index);
            assert_eq!(
                found,
                lesser_bound(two[0], two[1]),
                "{jobs:?} {settings:?} {index}"
            );
            differing += usize::from(found != bound(&without, &settings, index));
            above_period += usize::from(found != 0 && u16::from(job.delay) >= job.period);
            if settings[index].policy == ROUND_ROBIN {
                situations[Situation::of_bounds(two) as usize] += 1;
            }
        }
    }
    assert!(
        situations.iter().all(|count| *count >= 100),
        "{situations:?}"
    );
    assert!(differing >= 3_000, "{differing} bounds");
    assert!(above_period >= 300, "{above_period} bounds");
}

/// Let s and t be the finishes of instances j and k. The demand on instance j + 1 + k at s + t is
/// at most s + t, as a sum rounded up is at most the sum of its parts rounded up, so that the
/// instance finishes by s + t. If s is by (j+1)·T, its response is at most that of instance k.
/// Instances that the own delay adds to a run therefore have no larger responses: each of the two
/// bounds is larger by the delay, or 0.
#[test]
fn the_own_delay_is_added_to_each_bound_or_makes_it_0() {
    let (mut kept_open, mut over) = (0, 0);
    for case in 0..20_000 {
        let mut random = Random::of_case(19, case);
        let (jobs, settings) = any_delayed_list(&mut random);
        let is_placed = |index: &usize| settings[*index].policy != NOT_PLACED;
        for index in (0..jobs.len()).filter(is_placed) {
            for run_of_job in [first_run_by_recurrence, second_run_by_recurrence] {
                let run = run_of_job(&jobs, &settings, index);
                let without = run_of_job(&without_own_delay(&jobs, index), &settings, index);
                if run.end == End::Closed {
                    let expected = without.bound() + u16::from(jobs[index].delay);
                    assert_eq!(run.bound(), expected, "{jobs:?} {settings:?} {index}");
                    kept_open += usize::from(run.last_instance > without.last_instance);
                } else {
                    over += usize::from(without.end == End::Closed);
                }
            }
        }
    }
    assert!(kept_open >= 2_000 && over >= 2_000, "{kept_open} {over}");
}

#[test]
fn runs_by_the_recurrence_are_the_runs_by_the_search() {
    for case in 0..3_000 {
        let mut random = Random::of_case(20, case);
        let (jobs, settings) = any_delayed_list(&mut random);
        assert_same_runs(&jobs, &settings);
    }
}

#[test]
fn the_planner_answers_the_same_by_the_first_bound_alone() {
    let mut sharing = 0;
    for case in 0..6_000 {
        let mut random = Random::of_case(21, case);
        let mut jobs = near_full_list(&mut random);
        let most = random.choose(&[1, 4, 20]);
        for job in &mut jobs {
            job.delay = random.byte(0, most);
        }
        let plan = plan_by_both_rules(&mut random, &jobs);
        let shares = |setting: &Setting| setting.policy == ROUND_ROBIN;
        sharing += usize::from(has_delay(&jobs) && plan.settings.iter().any(shares));
    }
    assert!(sharing >= 50, "{sharing} plans");
}
