//! The orders of sets: each by the rule of its paper, worked lists in both, and what both leave the
//! same.

mod common;

use common::{jobs, near_full_list, planned, Planned, Times};
use reference::configuration::QuantumRange;
use reference::generation::delays::built_with_delays;
use reference::generation::layers::{built, stuck_on_top, UP_TO_PERIODS};
use reference::generation::orders::WRONG_ORDERS;
use reference::generation::random::Random;
use reference::generation::searches::Searches;
use reference::jobs::Job;
use reference::planner::{plan_jobs, plan_jobs_by, Plan, Rules, RULES};
use reference::sets::{by_number, by_periods, sum_of_periods, SetOrder};

/// The plan with the sets in an order.
fn plan_in(jobs: &[Job], range: QuantumRange, order: SetOrder) -> Plan {
    plan_jobs_by(jobs, range, Rules { order, ..RULES })
}

/// Jobs with these periods.
fn jobs_with_periods(periods: &[u16]) -> Vec<Job> {
    let times: Vec<Times> = periods.iter().map(|period| (1, *period, 1)).collect();
    jobs(&times)
}

#[test]
fn all_255_sets_by_number() {
    let jobs = jobs_with_periods(&[9, 1, 7, 2, 5, 5, 8, 60_000]);
    let sets = by_number(&jobs, 255);
    assert_eq!(sets.len(), 255);
    assert_eq!(sets[..10], [1, 2, 4, 8, 16, 32, 64, 128, 3, 5]);
    assert!(sets
        .windows(2)
        .all(|pair| (pair[0].count_ones(), pair[0]) < (pair[1].count_ones(), pair[1])));
    assert_eq!(by_number(&jobs, 0b110), [2, 4, 6]);
    assert_eq!(by_number(&jobs, 0), []);
}

#[test]
fn sets_of_four_jobs_by_periods() {
    // Pairs have the sums 18, 16, 14, 14, 12 and 10; of the two with 14, 6 + 8 has the number 6 and
    // 4 + 10 the number 9. Three jobs have 24, 22, 20 and 18.
    let jobs = jobs_with_periods(&[4, 6, 8, 10]);
    let sets = [8, 4, 2, 1, 12, 10, 6, 9, 5, 3, 14, 13, 11, 7, 15];
    assert_eq!(by_periods(&jobs, 15), sets);
    assert_eq!(by_periods(&jobs, 0b1001), [8, 1, 9]);
    assert_eq!(by_periods(&jobs, 0), []);
    // With equal periods the numbers decide.
    let equal = jobs_with_periods(&[7; 8]);
    assert_eq!(by_periods(&equal, 255), by_number(&equal, 255));
}

#[test]
fn a_sum_of_periods_does_not_fit_in_two_bytes() {
    let jobs = jobs_with_periods(&[60_000; 8]);
    assert_eq!(sum_of_periods(&jobs, 255), 480_000);
    assert_eq!(sum_of_periods(&jobs, 0), 0);
    // In two bytes 30,000 + 40,000 would be 4,464.
    let jobs = jobs_with_periods(&[20_000, 30_000, 40_000]);
    assert_eq!(by_periods(&jobs, 7), [4, 2, 1, 6, 5, 3, 7]);
}

/// Periods of one of several kinds: any, of few values, close to each other, and long.
fn any_periods(random: &mut Random) -> Vec<u16> {
    let (least, most) = random.choose(&[(1, 60_000), (4, 7), (90, 100), (30_000, 60_000)]);
    let count = random.between(1, 8);
    (0..count).map(|_| random.ticks(least, most)).collect()
}

/// Whether a pair of neighbours in E7's order keeps to it: "by size, then by larger sum of periods,
/// then by smaller set number".
fn are_in_order(jobs: &[Job], one: u8, next: u8) -> bool {
    let (size, next_size) = (one.count_ones(), next.count_ones());
    let (sum, next_sum) = (sum_of_periods(jobs, one), sum_of_periods(jobs, next));
    size < next_size
        || size == next_size && sum > next_sum
        || size == next_size && sum == next_sum && one < next
}

#[test]
fn sets_by_periods_keep_to_the_rule() {
    let (mut equal_sums, mut long_sums) = (0, 0);
    for case in 0..2_000 {
        let mut random = Random::of_case(17, case);
        let jobs = jobs_with_periods(&any_periods(&mut random));
        let rest = random.byte(0, u8::MAX) & (255 >> (8 - jobs.len()));
        let sets = by_periods(&jobs, rest);
        assert!(sets
            .windows(2)
            .all(|pair| are_in_order(&jobs, pair[0], pair[1])));
        let mut numbers = sets.clone();
        numbers.sort_unstable();
        let subsets: Vec<u8> = (1..=rest).filter(|set| set & !rest == 0).collect();
        assert_eq!(numbers, subsets, "each set once");
        let sum_and_size = |set: u8| (set.count_ones(), sum_of_periods(&jobs, set));
        let mut pairs = sets.windows(2);
        equal_sums += usize::from(pairs.any(|pair| sum_and_size(pair[0]) == sum_and_size(pair[1])));
        long_sums += usize::from(sum_of_periods(&jobs, rest) > 65_535);
    }
    assert!(
        equal_sums >= 300 && long_sums >= 300,
        "{equal_sums} {long_sums}"
    );
}

/// A list's times, its highest quantum, the placed set, the count of sets considered and the bounds.
type ExamList = (&'static [Times], u8, u8, u16, &'static [u16]);

#[test]
fn the_exam_lists_in_the_order_of_the_scope() {
    let lists: [ExamList; 7] = [
        (&[(2, 5, 5)], 4, 1, 1, &[2]),
        (&[(6, 8, 8), (5, 22, 22)], 4, 3, 3, &[8, 20]),
        (&[(6, 8, 8), (5, 22, 22)], 2, 0, 3, &[0, 0]),
        (&[(1, 4, 4), (2, 6, 6), (3, 12, 12)], 4, 7, 5, &[3, 2, 10]),
        (&[(6, 8, 8), (5, 23, 23)], 4, 3, 3, &[6, 23]),
        (&[(1, 1, 1), (1, 1, 1)], 4, 0, 3, &[0, 0]),
        (
            &[(6, 8, 8), (5, 22, 22), (1, 100, 100)],
            2,
            4,
            6,
            &[0, 0, 64],
        ),
    ];
    for (times, highest, placed, considered, bounds) in lists {
        let range = QuantumRange { lowest: 1, highest };
        let plan = plan_in(&jobs(times), range, by_number);
        assert_eq!((plan.placed, plan.considered), (placed, considered));
        assert_eq!(plan.bounds, bounds);
    }
}

#[test]
fn the_number_decides_between_equal_sums_of_other_periods() {
    // No job fits alone. Sums of pairs: 10 + 8, 10 + 6, then 8 + 6 and 4 + 10, of which the first
    // has the smaller number and does not fit. The second and the third job are left, and the one
    // with the longer period goes below: considered are 4 + 4, 1 and 1.
    let times = [(1, 4, 6), (1, 8, 4), (2, 6, 4), (2, 10, 10)];
    let expected = Planned {
        placed: 15,
        considered: 10,
        settings: vec![[1, 4, 2, 1], [2, 3, 1, 0], [3, 2, 1, 0], [4, 4, 2, 1]],
        bounds: vec![6, 3, 2, 10],
    };
    assert_eq!(planned(&times, 1, 4), expected);
    // Of 8 + 20 and 16 + 12 both fit, and the first and the third job have the smaller number.
    let times = [(3, 8, 11), (2, 16, 18), (3, 20, 20), (3, 12, 15)];
    let expected = Planned {
        placed: 15,
        considered: 9,
        settings: vec![[1, 4, 2, 2], [2, 3, 1, 0], [3, 4, 2, 1], [4, 2, 1, 0]],
        bounds: vec![11, 5, 19, 3],
    };
    assert_eq!(planned(&times, 1, 4), expected);
}

#[test]
fn sums_about_65536_decide() {
    // No job fits alone: below the others the first has 12,000 + 10,000 and more, the second 10,000
    // + 3 * 12,000 and more, and the last has no slack. With the quanta 3 and 1 the first two have
    // 12,000 + 4,000 + 1 and 10,000 + 30,000 + 3. The sum of their periods is 65,536, and that of
    // the last two is one below it, the same, and one above.
    for (period, considered) in [(16_001, 5), (16_002, 5), (16_003, 6)] {
        let times = [
            (12_000, 16_002, 16_002),
            (10_000, 49_534, 44_000),
            (1, period, 1),
        ];
        let expected = Planned {
            placed: 7,
            considered,
            settings: vec![[1, 3, 2, 3], [2, 3, 2, 1], [3, 2, 1, 0]],
            bounds: vec![16_001, 40_003, 1],
        };
        assert_eq!(planned(&times, 1, 4), expected);
    }
}

/// A list with the range that it is drawn for, of one of several kinds.
fn any_list(random: &mut Random) -> (Vec<Job>, QuantumRange) {
    let lowest = random.byte(1, 3);
    let range = QuantumRange {
        lowest,
        highest: random.byte(lowest, 5),
    };
    let count = random.between(2, 5);
    let jobs = match random.below(4) {
        0 => near_full_list(random),
        1 => stuck_on_top(random, count, range, UP_TO_PERIODS),
        2 => built_with_delays(random, count, range).jobs,
        _ => built(random, count, range, UP_TO_PERIODS).jobs,
    };
    (jobs, range)
}

/// "Which set of jobs ends up placed is the same under both orders".
#[test]
fn the_same_jobs_are_placed_in_both_orders() {
    let (mut differing, mut stopped_short) = (0, 0);
    for case in 0..6_000 {
        let (jobs, range) = any_list(&mut Random::of_case(18, case));
        let plan = plan_jobs(&jobs, range);
        let by_scope = plan_in(&jobs, range, by_number);
        assert_eq!(plan.placed, by_scope.placed, "{jobs:?} {range:?}");
        differing += usize::from(plan.settings != by_scope.settings);
        let is_short = plan.placed != 0 && plan.bounds.contains(&0);
        stopped_short += usize::from(is_short);
    }
    assert!(differing >= 1_000, "{differing} lists");
    assert!(stopped_short >= 1_000, "{stopped_short} lists");
}

#[test]
fn plans_are_the_same_exactly_if_the_steps_of_their_searches_are() {
    let mut differing = [0; WRONG_ORDERS.len()];
    for case in 0..1_500 {
        let (jobs, range) = any_list(&mut Random::of_case(19, case));
        let mut searches = Searches::new(&jobs, range);
        let plan = plan_jobs(&jobs, range);
        let right = searches.steps(RULES.order).expect("the search is short");
        for ((name, order), count) in WRONG_ORDERS.iter().zip(&mut differing) {
            let wrong = searches.steps(*order).expect("the search is short");
            let is_same = plan_in(&jobs, range, *order) == plan;
            assert_eq!(wrong == right, is_same, "{name}: {jobs:?} {range:?}");
            *count += usize::from(!is_same);
        }
    }
    let some = differing.iter().filter(|count| **count > 0).count();
    assert!(some >= 14, "{differing:?}");
}
