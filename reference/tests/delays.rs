//! Delays: examples worked out by hand, and the blocks and tables that carry them.

mod common;

use common::{
    block_of_jobs, bounds_of_jobs, delayed_jobs, marked_jobs, planned_jobs, shared_level, Planned,
    SettingNumbers, Times,
};
use reference::configuration::setting_of_record;
use reference::jobs::{Job, MOST_JOBS};
use reference::response_time::{bound, finish_by_search, first_run, interference, End};
use reference::{edit, key, read_jobs, write_jobs, Refusal};

/// C, T and D of a job, and its J.
type Delayed = (Times, u8);

/// Two jobs alone on their levels, the first above the second.
const ONE_BELOW_THE_OTHER: [SettingNumbers; 2] = [[1, 1, 1, 0], [2, 2, 1, 0]];

/// The bound of the second job, alone on its level below the first.
fn bound_below(above: Delayed, below: Delayed) -> u16 {
    marked_jobs(&delayed_jobs(&[above, below]), 1, 4, &ONE_BELOW_THE_OTHER).1[1]
}

/// The end and the last instance of the second job's run, alone on its level below the first.
fn run_below(above: Delayed, below: Delayed) -> (End, u64) {
    let settings = ONE_BELOW_THE_OTHER.map(|numbers| setting_of_record(&numbers));
    let jobs = delayed_jobs(&[above, below]);
    let run = first_run(&jobs, &settings, 1, finish_by_search);
    (run.end, run.last_instance)
}

/// The bound of a job with nothing above it, and where its run ends.
fn alone(times: Times, delay: u8) -> (u16, End, u64) {
    let jobs = delayed_jobs(&[(times, delay)]);
    let settings = [setting_of_record(&[1, 1, 1, 0])];
    let run = first_run(&jobs, &settings, 0, finish_by_search);
    assert_eq!(bound(&jobs, &settings, 0), run.bound());
    (run.bound(), run.end, run.last_instance)
}

#[test]
fn a_delay_makes_a_job_above_count_once_more() {
    // At 5 + 3 = 8 the job above has one release until 8 + J is above 10. Then it has two at
    // 5 + 6 = 11, until 11 + J is above 20, three at 14 until 14 + J is above 30, and four at 17.
    for (delay, bound) in [
        (0, 8),
        (2, 8),
        (3, 11),
        (9, 11),
        (10, 14),
        (16, 14),
        (17, 17),
    ] {
        assert_eq!(
            bound_below(((3, 10, 60_000), delay), ((5, 20, 20), 0)),
            bound
        );
    }
    assert_eq!(bound_below(((3, 10, 60_000), 2), ((5, 20, 8), 0)), 8);
    assert_eq!(bound_below(((3, 10, 60_000), 3), ((5, 20, 10), 0)), 0);
}

#[test]
fn a_delay_above_the_period_has_several_releases_at_the_start() {
    // 256 ticks hold 64 periods of 4, and 347 hold 87 begun ones: 5 + 87·1 = 92.
    let above = ((1, 4, 60_000), 255);
    assert_eq!(interference(&delayed_jobs(&[above])[0], 1), 64);
    assert_eq!(bound_below(above, ((5, 100, 100), 0)), 92);
    assert_eq!(bound_below(above, ((5, 100, 91), 0)), 0);
    // 255 ticks of 5 are 51 whole periods, so the next tick has a release of its own.
    assert_eq!(interference(&delayed_jobs(&[((1, 5, 5), 255)])[0], 1), 52);
}

#[test]
fn the_delay_of_a_job_below_plays_no_part() {
    for delay in [0, 1, 255] {
        let jobs = delayed_jobs(&[((3, 10, 10), 0), ((5, 20, 300), delay)]);
        let bounds = marked_jobs(&jobs, 1, 4, &ONE_BELOW_THE_OTHER).1;
        assert_eq!(bounds, [3, 8 + u16::from(delay)]);
    }
}

#[test]
fn a_job_has_its_own_delay_in_its_bound() {
    for delay in 0..=15 {
        assert_eq!(
            alone((5, 20, 20), delay),
            (5 + u16::from(delay), End::Closed, 0)
        );
    }
    // 5 + 16 is above the deadline.
    assert_eq!(alone((5, 20, 20), 16), (0, End::OverDeadline, 0));
    // The finish is 8 in each case: the own delay adds no release of the job above.
    assert_eq!(bound_below(((3, 10, 10), 0), ((5, 20, 20), 12)), 20);
    assert_eq!(bound_below(((3, 10, 10), 0), ((5, 20, 20), 13)), 0);
}

#[test]
fn the_longest_delay() {
    assert_eq!(alone((1, 60_000, 256), 255), (256, End::Closed, 0));
    assert_eq!(alone((1, 60_000, 255), 255), (0, End::OverDeadline, 0));
    assert_eq!(
        alone((59_745, 60_000, 60_000), 255),
        (60_000, End::Closed, 0)
    );
    assert_eq!(
        alone((59_746, 60_000, 60_000), 255),
        (0, End::OverDeadline, 0)
    );
    // Instance j finishes at j + 1, and j + 1 + 255 is by 5·(j+1) from j + 1 = 64 on.
    assert_eq!(alone((1, 5, 256), 255), (256, End::Closed, 63));
    assert_eq!(alone((1, 5, 255), 255), (0, End::OverDeadline, 0));
    // 64 + 255 is past 64·4.
    assert_eq!(alone((1, 4, 60_000), 255), (0, End::StillRunning, 63));
}

#[test]
fn a_delay_that_alone_exceeds_the_deadline() {
    assert_eq!(alone((1, 60_000, 10), 9), (10, End::Closed, 0));
    for delay in [10, 11, 12, 255] {
        assert_eq!(alone((1, 60_000, 10), delay), (0, End::OverDeadline, 0));
        assert_eq!(alone((1, 1, 10), delay), (0, End::OverDeadline, 0));
    }
    // Later responses would be less, and the first decides: 3 + 8 is above 10, 6 + 8 - 10 is not.
    assert_eq!(alone((3, 10, 10), 8), (0, End::OverDeadline, 0));
}

#[test]
fn the_own_delay_keeps_a_run_open() {
    // Finishes 3, 6 and so on. 3 + 7 is by 10; 3 + 8 is past it, and then 6 + 8 is by 20. That
    // finish is before the release at 10, and its response is 6 + 8 - 10.
    assert_eq!(alone((3, 10, 60_000), 7), (10, End::Closed, 0));
    assert_eq!(alone((3, 10, 60_000), 8), (11, End::Closed, 1));
    // 3·(j+1) + 21 is by 10·(j+1) from j + 1 = 3 on, and with 22 from j + 1 = 4 on.
    assert_eq!(alone((3, 10, 60_000), 21), (24, End::Closed, 2));
    assert_eq!(alone((3, 10, 60_000), 22), (25, End::Closed, 3));
}

#[test]
fn a_delay_above_keeps_a_run_open_with_its_bound_at_a_later_instance() {
    // Without a delay the finishes are 9 and 15, which is by 16: responses 9 and 7. With a delay of
    // 1 they are 9, 18 and 24, which is by 24: responses 9, 10 and 8.
    let (before, after) = (((3, 5, 60_000), 0), ((3, 5, 60_000), 1));
    let below = |deadline| ((3, 8, deadline), 0);
    assert_eq!(run_below(before, below(9)), (End::Closed, 1));
    assert_eq!(bound_below(before, below(9)), 9);
    assert_eq!(run_below(after, below(10)), (End::Closed, 2));
    assert_eq!(bound_below(after, below(10)), 10);
    assert_eq!(run_below(after, below(9)), (End::OverDeadline, 1));
    // Without a delay the finishes are 114, 202, 316, 404, 518, 606 and 694. With a delay of 20
    // they are 114, 228, 316, 430, 518, 606, 720, 808, 922, 1010 and 1098; the last one is the
    // first by its (j+1)·100. The responses are 114, 128, 116, 130, 118, 106, 120, 108, 122, 110
    // and 98.
    let (before, after) = (((26, 70, 70), 0), ((26, 70, 70), 20));
    let below = |deadline| ((62, 100, deadline), 0);
    assert_eq!(run_below(before, below(118)), (End::Closed, 6));
    assert_eq!(bound_below(before, below(118)), 118);
    assert_eq!(run_below(after, below(130)), (End::Closed, 10));
    assert_eq!(bound_below(after, below(130)), 130);
    assert_eq!(run_below(after, below(129)), (End::OverDeadline, 3));
}

#[test]
fn instance_63_closes_the_run_or_just_not() {
    // The job above runs once, for c ticks. Instance j finishes at c + 9·(j+1), and that plus J is
    // by 10·(j+1) from j + 1 = c + J on. The first response, c + 9 + J, is the largest.
    for cost in 1..=64 {
        let above = ((cost, 60_000, 60_000), 0);
        let delay = 64 - cost as u8;
        assert_eq!(run_below(above, ((9, 10, 73), delay)), (End::Closed, 63));
        assert_eq!(bound_below(above, ((9, 10, 73), delay)), 73);
        assert_eq!(bound_below(above, ((9, 10, 72), delay)), 0);
        let longer = ((9, 10, 60_000), delay + 1);
        assert_eq!(run_below(above, longer), (End::StillRunning, 63));
        assert_eq!(bound_below(above, longer), 0);
    }
    assert_eq!(alone((9, 10, 60_000), 64), (73, End::Closed, 63));
    assert_eq!(alone((9, 10, 60_000), 65), (0, End::StillRunning, 63));
}

/// The first bounds, the second bounds and the bounds of two jobs that share a level.
fn bounds_of_two(first: Delayed, second: Delayed, quanta: [u8; 2]) -> [Vec<u16>; 3] {
    bounds_of_jobs(&delayed_jobs(&[first, second]), &shared_level(&quanta))
}

#[test]
fn a_delay_of_a_neighbour_counts_in_the_second_bound_alone() {
    // Without delays the first bounds are 4 + 4·4 and 2 + 1·1, the second 4 + 2 for both. 6 + 14 is
    // one period of 20; 6 + 15 is more, so that the second bound of the first job is 4 + 2·2. The
    // second job has its own J in both of its bounds: 3 + J, and 6 + J which is up to 20 or 0.
    for (delay, first, second, bounds) in [
        (0, [20, 3], [6, 6], [6, 3]),
        (14, [20, 17], [6, 20], [6, 17]),
        (15, [20, 18], [8, 0], [8, 18]),
        (18, [20, 0], [8, 0], [8, 0]),
    ] {
        let found = bounds_of_two(((4, 20, 20), 0), ((2, 20, 20), delay), [1, 4]);
        assert_eq!(found, [first.to_vec(), second.to_vec(), bounds.to_vec()]);
    }
    for delay in 0..=255 {
        let found = bounds_of_two(((4, 20, 20), 0), ((2, 20, 20), delay), [1, 4]);
        assert_eq!(found[0][0], 20);
    }
}

#[test]
fn the_first_bound_decides_where_a_neighbour_is_late() {
    // The first bound is 4 + 1·3. The second is 4 + 2, and with a delay of 15 it is 4 + 2·2.
    for (delay, bound) in [(0, 6), (14, 6), (15, 7), (255, 7)] {
        let [first, _, bounds] = bounds_of_two(((4, 20, 20), 0), ((2, 20, 20), delay), [4, 3]);
        assert_eq!((first[0], bounds[0]), (7, bound));
    }
    // With a deadline of 6 the first bound is 0, and the delay decides whether the bound is.
    for (delay, bound) in [(14, 6), (15, 0)] {
        let [_, _, bounds] = bounds_of_two(((4, 20, 6), 0), ((2, 20, 20), delay), [4, 3]);
        assert_eq!(bounds[0], bound);
    }
}

#[test]
fn the_planner_goes_by_the_delays() {
    // The second worked exam list: alone below the other each job is over its deadline, and 20 + 2
    // is up to 22. With 3 it is not, and no other quanta in range serve the first job.
    let planned_with = |delays: [u8; 2]| {
        let jobs = delayed_jobs(&[((6, 8, 8), delays[0]), ((5, 22, 22), delays[1])]);
        (planned_jobs(&jobs, 1, 4), key(&block_of_jobs(&jobs)))
    };
    let sharing = Planned {
        placed: 3,
        considered: 3,
        settings: vec![[1, 2, 2, 3], [2, 2, 2, 1]],
        bounds: vec![8, 22],
    };
    let text = "1 2 2 3 8\n2 2 2 1 22\nplaced 2 of 2\n";
    assert_eq!(planned_with([0, 2]), (sharing, text.to_string()));
    for delays in [[0, 3], [1, 0], [255, 255]] {
        let (plan, text) = planned_with(delays);
        assert_eq!((plan.placed, plan.considered), (0, 3));
        assert_eq!(text, "1 0 0 0 0\n2 0 0 0 0\nplaced 0 of 2\n");
    }
}

#[test]
fn the_planner_puts_another_job_lowest() {
    // Without delays the first job fits lowest: 1 + 3 + 2 = 6. With a J of 7 it has 13 there, which
    // is above 12, and the second fits: 3 + 2 + 2·1 = 7, as 6 + 7 is more than a period of the
    // first. At the next level the first has 1 + 2 + 7.
    let planned_with = |delay| {
        let times = [((1, 12, 12), delay), ((3, 12, 12), 0), ((2, 12, 12), 0)];
        let plan = planned_jobs(&delayed_jobs(&times), 1, 4);
        let levels: Vec<u8> = plan.settings.iter().map(|setting| setting[1]).collect();
        (levels, plan.bounds, plan.considered)
    };
    assert_eq!(planned_with(0), (vec![3, 2, 1], vec![6, 5, 2], 3));
    assert_eq!(planned_with(7), (vec![2, 3, 1], vec![10, 7, 2], 4));
}

#[test]
fn blocks_and_tables_carry_the_delay() {
    for delay in 0..=255 {
        let block = [3, delay, 0, 6, 0, 8, 0, 9];
        let job = Job {
            id: 3,
            delay,
            cost: 6,
            period: 8,
            deadline: 9,
        };
        let (answer, table) = read_jobs(&block);
        assert_eq!((answer, table[0]), (Ok(1), job));
        let mut output = [0xa5; 9];
        assert_eq!(write_jobs(&table, 1, &mut output), Ok(8));
        assert_eq!((&output[..8], output[8]), (&block[..], 0xa5));
    }
}

#[test]
fn an_edit_keeps_the_delay() {
    for delay in 0..=255 {
        let jobs_with = |edited| delayed_jobs(&[((1, 9, 9), 7), (edited, delay)]);
        let mut jobs = jobs_with((6, 8, 8));
        assert_eq!(edit(&mut jobs, 1, 1, 1, 1), Ok(()));
        assert_eq!(jobs, jobs_with((1, 1, 1)));
        assert_eq!(edit(&mut jobs, 1, 2, 1, 1), Err(Refusal::JobTimes));
        assert_eq!(jobs, jobs_with((1, 1, 1)));
    }
}

#[test]
fn refusal_2_concerns_the_id_alone() {
    for delay in 0..=255 {
        let number = |block: [u8; 16]| read_jobs(&block).0.map_err(Refusal::number);
        let block = |id| [1, delay, 0, 1, 0, 9, 0, 9, id, delay, 0, 1, 0, 9, 0, 9];
        assert_eq!(number(block(2)), Ok(2));
        assert_eq!(number(block(0)), Err(2));
        assert_eq!(number(block(1)), Err(3));
        let mut table = [Job::default(); MOST_JOBS];
        table[..2].copy_from_slice(&delayed_jobs(&[((1, 9, 9), delay), ((1, 9, 9), delay)]));
        assert_eq!(write_jobs(&table, 2, &mut [0; 16]), Ok(16));
        table[1].id = 0;
        let answer = write_jobs(&table, 2, &mut [0; 16]);
        assert_eq!(answer, Err(Refusal::JobIdentity));
    }
}
