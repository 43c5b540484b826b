//! The breakdown of bounds: figures worked out by hand, the law of the amounts, and a breakdown
//! written from the text about it.

mod common;

use common::{
    any_delayed_list, block_of_jobs, delayed_jobs, finishes_of_instances, near_full_list,
    responses_of_finishes, setting_block, with_neighbours_above, SettingNumbers, Times,
};
use reference::breakdown::{breakdown_of_job, Breakdown};
use reference::configuration::{Setting, FIFO, NOT_PLACED, ROUND_ROBIN};
use reference::generation::long_deadlines::finish_by_recurrence;
use reference::generation::random::Random;
use reference::jobs::Job;
use reference::response_time::{bound, finish_by_search};
use reference::{bounds, breakdown};

/// The instance, which bound decided, and the five amounts.
type Parts = [u64; 7];

/// The parts of a bound of 0.
const ZEROS: Parts = [0; 7];

/// C, T and D of a job, and its J.
type Delayed = (Times, u8);

/// The byte that every lent output holds before a call.
const LENT: u8 = 0xa5;

/// The parts of a record of 22 bytes.
fn parts_of_record(record: &[u8]) -> Parts {
    let number = |bytes: &[u8]| {
        bytes
            .iter()
            .fold(0, |sum, byte| 256 * sum + u64::from(*byte))
    };
    let places = [0..1, 1..2, 2..6, 6..10, 10..14, 14..18, 18..22];
    places.map(|place| number(&record[place]))
}

/// What is written for jobs and a configuration that are accepted, with quanta from 1 to 64. The
/// amounts are compared with the bounds, and the bytes past the need are as before.
fn broken_down(times: &[Delayed], settings: &[SettingNumbers]) -> Vec<Parts> {
    let (block, settings) = (block_of_jobs(&delayed_jobs(times)), setting_block(settings));
    let need = 22 * times.len();
    let mut output = vec![LENT; need + 3];
    assert_eq!(breakdown(&block, 1, 64, &settings, &mut output), Ok(()));
    assert_eq!(output[need..], [LENT; 3]);
    let parts: Vec<Parts> = output[..need].chunks(22).map(parts_of_record).collect();
    let mut expected = vec![0; 2 * times.len()];
    assert_eq!(bounds(&block, 1, 64, &settings, &mut expected), Ok(()));
    assert_eq!(
        parts.iter().map(bound_of_parts).collect::<Vec<u16>>(),
        common::bound_numbers(&expected)
    );
    parts
}

/// "The first four amounts less the fifth make the bound exactly".
fn bound_of_parts([_, _, own_work, share, above, delay, taken_off]: &Parts) -> u16 {
    (own_work + share + above + delay - taken_off) as u16
}

/// Jobs without delays.
fn without_delays(times: &[Times]) -> Vec<Delayed> {
    times.iter().map(|times| (*times, 0)).collect()
}

#[test]
fn the_key_of_k2() {
    let jobs = without_delays(&[(6, 8, 8), (5, 22, 22)]);
    let parts = broken_down(&jobs, &[[1, 2, 2, 3], [2, 2, 2, 1]]);
    assert_eq!(parts, [[0, 1, 6, 2, 0, 0, 0], [0, 1, 5, 15, 0, 0, 0]]);
}

#[test]
fn the_bytes_of_k2() {
    let jobs = block_of_jobs(&delayed_jobs(&without_delays(&[(6, 8, 8), (5, 22, 22)])));
    let mut output = [LENT; 44];
    let done = breakdown(&jobs, 1, 4, &[1, 2, 2, 3, 2, 2, 2, 1], &mut output);
    assert_eq!(done, Ok(()));
    let zeros = [0; 12];
    let first = [&[0, 1, 0, 0, 0, 6, 0, 0, 0, 2], &zeros[..]].concat();
    let second = [&[0, 1, 0, 0, 0, 5, 0, 0, 0, 15], &zeros[..]].concat();
    assert_eq!(output.to_vec(), [first, second].concat());
}

#[test]
fn the_example_of_the_second_bound() {
    let jobs = without_delays(&[(4, 20, 20), (2, 20, 20)]);
    let parts = broken_down(&jobs, &[[1, 1, 2, 1], [2, 1, 2, 4]]);
    assert_eq!(parts, [[0, 2, 4, 2, 0, 0, 0], [0, 1, 2, 1, 0, 0, 0]]);
}

#[test]
fn the_first_bound_decides_if_both_are_the_same() {
    // The first job's runs have the responses 6, 4, 2 and 5, 6, 4, 2. The second job's first run is
    // over the deadline, and its second run has 7 and 6.
    let jobs = [((1, 3, 7), 1), ((3, 6, 13), 2)];
    let parts = broken_down(&jobs, &[[1, 1, 2, 4], [2, 1, 2, 4]]);
    assert_eq!(parts, [[0, 1, 1, 4, 0, 1, 0], [0, 2, 3, 2, 0, 2, 0]]);
}

#[test]
fn the_second_bound_decides_at_a_later_instance() {
    // The first job's runs have the responses 5, 4, 3, 2 and 3, 4, 3, 2. At 6 the neighbour, with
    // its delay, has two releases.
    let jobs = [((1, 2, 6), 0), ((2, 5, 13), 2)];
    let parts = broken_down(&jobs, &[[1, 1, 2, 4], [2, 1, 2, 4]]);
    assert_eq!(parts, [[1, 2, 2, 4, 0, 0, 2], [0, 2, 2, 2, 0, 2, 0]]);
}

#[test]
fn a_policy_1_job_at_a_later_instance() {
    // The second job has the responses 114, 102, 116, 104, 118, 106 and 94, and 118 at 518.
    let jobs = without_delays(&[(26, 70, 70), (62, 100, 118)]);
    let below = [4, 1, 310, 0, 208, 0, 400];
    let parts = broken_down(&jobs, &[[1, 1, 1, 0], [2, 2, 1, 0]]);
    assert_eq!(parts, [[0, 1, 26, 0, 0, 0, 0], below]);
    // "A job not placed counts as above every placed one."
    let parts = broken_down(&jobs, &[[1, 0, 0, 0], [2, 1, 1, 0]]);
    assert_eq!(parts, [ZEROS, below]);
    let jobs = without_delays(&[(26, 70, 70), (62, 100, 117)]);
    let parts = broken_down(&jobs, &[[1, 0, 0, 0], [2, 1, 1, 0]]);
    assert_eq!(parts, [ZEROS, ZEROS]);
}

#[test]
fn the_first_of_two_instances_that_reach_the_bound() {
    // The second job has the responses 4, 4 and 3.
    let jobs = [((1, 4, 4), 0), ((2, 3, 4), 1)];
    let parts = broken_down(&jobs, &[[1, 1, 1, 0], [2, 2, 1, 0]]);
    assert_eq!(parts, [[0, 1, 1, 0, 0, 0, 0], [0, 1, 2, 0, 1, 1, 0]]);
}

#[test]
fn cycles_are_those_of_the_instances_own_work() {
    // The first job has the responses 2 + 1·3, 4 + 2·3 - 4 and 6 + 2·3 - 8. The second job's bounds
    // are 60 + 20·3 and 60 + 30·2.
    let jobs = without_delays(&[(2, 4, 60), (60, 600, 600)]);
    let parts = broken_down(&jobs, &[[1, 2, 2, 3], [2, 2, 2, 3]]);
    assert_eq!(parts, [[1, 1, 4, 6, 0, 0, 4], [0, 1, 60, 60, 0, 0, 0]]);
}

#[test]
fn amounts_of_more_than_two_bytes() {
    let jobs = without_delays(&[(13_000, 35_000, 35_000), (31_000, 50_000, 60_000)]);
    let parts = broken_down(&jobs, &[[1, 1, 1, 0], [2, 2, 1, 0]]);
    assert_eq!(parts[1], [4, 1, 155_000, 0, 104_000, 0, 200_000]);
}

/// The work of the jobs whose levels are chosen, the own level being given beside each, by a time.
fn work(
    jobs: &[Job],
    settings: &[Setting],
    index: usize,
    time: u64,
    is_chosen: fn(u8, u8) -> bool,
) -> u64 {
    let mut work = 0;
    for (other, (job, setting)) in jobs.iter().zip(settings).enumerate() {
        if other != index && is_chosen(setting.level, settings[index].level) {
            let releases = (time + u64::from(job.delay)).div_ceil(u64::from(job.period));
            work += releases * u64::from(job.cost);
        }
    }
    work
}

/// The finishes of the run that decides a job's bound, with its number.
fn deciding_finishes(jobs: &[Job], settings: &[Setting], index: usize) -> Option<(u64, Vec<u64>)> {
    let bound_of = |finishes: &Vec<u64>| {
        let responses = responses_of_finishes(&jobs[index], finishes);
        responses.into_iter().max()
    };
    let policy = settings[index].policy;
    let first = (policy != NOT_PLACED).then(|| finishes_of_instances(jobs, settings, index));
    let second = (policy == ROUND_ROBIN).then(|| {
        let above = with_neighbours_above(settings, index);
        finishes_of_instances(jobs, &above, index)
    });
    match (first.flatten(), second.flatten()) {
        (Some(first), Some(second)) if bound_of(&second) < bound_of(&first) => Some((2, second)),
        (Some(first), _) => Some((1, first)),
        (None, second) => Some((2, second?)),
    }
}

/// The breakdown by the text, every time being tried for every instance.
fn parts_by_text(jobs: &[Job], settings: &[Setting], index: usize) -> Parts {
    let Some((decided, finishes)) = deciding_finishes(jobs, settings, index) else {
        return ZEROS;
    };
    let (job, own) = (&jobs[index], &settings[index]);
    let responses = responses_of_finishes(job, &finishes);
    let largest = responses.iter().max();
    let reaches = |response: &u64| Some(response) == largest;
    let instance = responses
        .iter()
        .position(reaches)
        .expect("a run has an instance");
    let (finish, instance) = (finishes[instance], instance as u64);
    let own_work = (instance + 1) * u64::from(job.cost);
    let quanta = settings.iter().filter(|setting| setting.level == own.level);
    let quanta: u64 = quanta.map(|setting| u64::from(setting.quantum)).sum();
    let share = match (own.policy, decided) {
        (FIFO, _) => 0,
        (_, 1) => {
            let quantum = u64::from(own.quantum);
            own_work.div_ceil(quantum) * (quanta - quantum)
        }
        _ => work(jobs, settings, index, finish, |level, own| level == own),
    };
    let above = work(jobs, settings, index, finish, |level, own| level < own);
    assert_eq!(own_work + share + above, finish);
    let taken_off = instance * u64::from(job.period);
    [
        instance,
        decided,
        own_work,
        share,
        above,
        u64::from(job.delay),
        taken_off,
    ]
}

/// The parts of a breakdown.
fn parts_of(breakdown: &Breakdown) -> Parts {
    let [own_work, share, above, delay, taken_off] = breakdown.amounts().map(u64::from);
    let (instance, decided) = (breakdown.instance.into(), breakdown.decided.into());
    [instance, decided, own_work, share, above, delay, taken_off]
}

/// Compares the breakdowns of all jobs with those by the text, and counts by the first byte, 0 or
/// more, and by the second.
fn compare(jobs: &[Job], settings: &[Setting], counts: &mut [[usize; 3]; 2]) {
    for index in 0..jobs.len() {
        let found = breakdown_of_job(jobs, settings, index, finish_by_search);
        let expected = parts_by_text(jobs, settings, index);
        assert_eq!(parts_of(&found), expected, "{jobs:?} {settings:?} {index}");
        assert_eq!(found.bound(), bound(jobs, settings, index));
        let by_recurrence = breakdown_of_job(jobs, settings, index, finish_by_recurrence);
        assert_eq!(by_recurrence, found);
        counts[usize::from(found.instance > 0)][usize::from(found.decided)] += 1;
    }
}

#[test]
fn breakdowns_agree_with_the_text_for_any_lists() {
    let mut counts = [[0; 3]; 2];
    for case in 0..6_000 {
        let mut random = Random::of_case(31, case);
        let (jobs, settings) = any_delayed_list(&mut random);
        compare(&jobs, &settings, &mut counts);
    }
    let [[none, first, second], [no_instance, first_later, second_later]] = counts;
    assert_eq!(no_instance, 0);
    assert!(none.min(first).min(second) >= 2_000, "{counts:?}");
    assert!(first_later.min(second_later) >= 20, "{counts:?}");
}

#[test]
fn breakdowns_agree_with_the_text_where_runs_have_many_instances() {
    let mut counts = [[0; 3]; 2];
    for case in 0..3_000 {
        let mut random = Random::of_case(32, case);
        let mut jobs = near_full_list(&mut random);
        let most = random.choose(&[0, 3, 20]);
        for job in &mut jobs {
            (job.deadline, job.delay) = (400, random.byte(0, most));
        }
        let settings = common::any_settings(&mut random, jobs.len());
        compare(&jobs, &settings, &mut counts);
    }
    let [_, [_, first_later, second_later]] = counts;
    assert!(first_later.min(second_later) >= 50, "{counts:?}");
}
