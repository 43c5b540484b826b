//! Entry 9, the exam desk's edit. Given: the place, the cost, the period and the deadline; the job
//! records of the slice. Answered: no numbers; the records of the slice.

use crate::desk::edit;
use crate::entries::faults::{Fault, Faults};
use crate::entries::{jobs_of_first_block, output_frame, whole_records, Entry};
use crate::frames::Frame;
use crate::generation::job_faults::{with_bad_times, with_one_bad_time, BadTimes};
use crate::generation::layers::{DelayRule, NO_DELAY};
use crate::generation::lists::job_of_times;
use crate::generation::long_deadlines::deadline_beyond;
use crate::generation::random::Random;
use crate::jobs::{
    jobs_of_records, judge_table_count, judge_times, records_of_jobs, Job, JOB_BYTES,
    LONGEST_PERIOD, MOST_JOBS,
};
use crate::refusal::Refusal;

pub const EDIT: u8 = 9;

pub const ENTRY: Entry = Entry {
    number: EDIT,
    name: "edit",
    answer,
    faults,
    jobs: jobs_of_first_block,
};

fn answer(input: &Frame) -> Option<Frame> {
    let ([place, cost, period, deadline], [slice]) = input.parts()?;
    let mut jobs = jobs_of_records(whole_records(slice, JOB_BYTES)?);
    let answer = edit(&mut jobs, usize::from(place), cost, period, deadline);
    let answer = answer.map(|()| []);
    Some(output_frame(answer, [records_of_jobs(&jobs)]))
}

fn faults(input: &Frame) -> Option<Vec<Fault>> {
    let ([place, cost, period, deadline], [slice]) = input.parts()?;
    let count = jobs_of_records(slice).len();
    let mut faults = Faults::default();
    faults.judge(judge_table_count(count));
    if usize::from(place) >= count {
        faults.judge(Err(Refusal::EditPlace));
    }
    faults.judge(judge_times(&[job_of_times(cost, period, deadline)]));
    Some(faults.found())
}

/// What an edit's call is to show.
#[derive(Clone, Copy, PartialEq, Eq)]
enum Kind {
    Accepted,
    BadCount,
    BadPlace,
    BadTimes,
}

/// How the calls of a group of cases are drawn.
pub struct EditRule {
    /// The kinds in turn.
    kinds: &'static [Kind],
    good_times: fn(&mut Random) -> Job,
    bad_times: BadTimes,
    /// The delays of the jobs in the slice lent.
    delay: DelayRule,
}

/// Calls with deadlines up to periods and without delays.
pub const EDITS: EditRule = EditRule {
    kinds: &KINDS,
    good_times,
    bad_times: with_bad_times,
    delay: NO_DELAY,
};

/// Calls with deadlines above periods and without delays.
pub const LONG_DEADLINE_EDITS: EditRule = EditRule {
    kinds: &KINDS,
    good_times: good_times_with_long_deadline,
    bad_times: with_one_bad_time,
    delay: NO_DELAY,
};

/// Calls with delays, which the edit keeps. A delay may be above all times of its job.
pub const DELAY_EDITS: EditRule = EditRule {
    kinds: &MOSTLY_ACCEPTED,
    good_times: |random| match random.below(2) {
        0 => good_times(random),
        _ => good_times_with_long_deadline(random),
    },
    bad_times: with_one_bad_time,
    delay: |random| match random.below(6) {
        0 => random.choose(&[1, u8::MAX]),
        _ => random.byte(1, u8::MAX),
    },
};

/// The kinds in turn. Only the edit has refusal 4, so its calls are the most.
const KINDS: [Kind; 10] = [
    Kind::Accepted,
    Kind::BadPlace,
    Kind::BadCount,
    Kind::Accepted,
    Kind::BadPlace,
    Kind::BadTimes,
    Kind::BadPlace,
    Kind::Accepted,
    Kind::BadCount,
    Kind::BadPlace,
];

/// The kinds in turn where most calls are accepted.
const MOSTLY_ACCEPTED: [Kind; 10] = [
    Kind::Accepted,
    Kind::Accepted,
    Kind::BadPlace,
    Kind::Accepted,
    Kind::Accepted,
    Kind::BadTimes,
    Kind::Accepted,
    Kind::Accepted,
    Kind::BadCount,
    Kind::Accepted,
];

/// A time up to the most, which is itself the time every other time.
fn up_to(random: &mut Random, most: u16) -> u16 {
    if random.once_in(2) {
        most
    } else {
        random.ticks(1, most)
    }
}

/// Accepted times, among them the least, the longest and C equal to D; no D is above its T.
fn good_times(random: &mut Random) -> Job {
    let most = random.choose(&[1, 10, 1_000, LONGEST_PERIOD]);
    let period = up_to(random, most);
    let deadline = up_to(random, period);
    let cost = up_to(random, deadline);
    job_of_times(cost, period, deadline)
}

/// Accepted times with a D above T unless T is the longest, among them T equal to C.
fn good_times_with_long_deadline(random: &mut Random) -> Job {
    let most = random.choose(&[1, 10, 1_000, LONGEST_PERIOD]);
    let period = up_to(random, most);
    let cost = up_to(random, period);
    job_of_times(cost, period, deadline_beyond(random, period))
}

/// A slice of jobs with any numbers at all, as the entries that are not edited are not judged.
fn any_jobs(random: &mut Random, count: usize, delay: DelayRule) -> Vec<Job> {
    let mut jobs = Vec::new();
    for _ in 0..count {
        let mut job = job_of_times(
            random.ticks(0, u16::MAX),
            random.ticks(0, u16::MAX),
            random.ticks(0, u16::MAX),
        );
        job.id = random.byte(0, u8::MAX);
        job.delay = delay(random);
        jobs.push(job);
    }
    jobs
}

/// A number of jobs from 1 to 8 and a place below it, all such pairs in turn.
fn count_and_place(round: usize) -> (usize, usize) {
    let pairs = MOST_JOBS * (MOST_JOBS + 1) / 2;
    let mut place = round % pairs;
    let mut count = 1;
    while place >= count {
        place -= count;
        count += 1;
    }
    (count, place)
}

/// The number of jobs lent and the place. Bad counts and counts for bad places come in turn.
fn lent_and_place(random: &mut Random, kind: Kind, round: usize) -> (usize, usize) {
    match kind {
        Kind::Accepted | Kind::BadTimes => count_and_place(round),
        Kind::BadCount => {
            let count = [0, MOST_JOBS + 1, MOST_JOBS + 2][round % 3];
            (count, random.choose(&[0, MOST_JOBS - 1, count, 255]))
        }
        Kind::BadPlace => {
            let count = 1 + round % MOST_JOBS;
            (count, random.choose(&[count, count, count + 1, 255]))
        }
    }
}

/// The call that is the `turn`-th by a rule, counted from 0.
pub fn edit_call(random: &mut Random, turn: usize, rule: &EditRule) -> Frame {
    let kinds = rule.kinds;
    let kind = kinds[turn % kinds.len()];
    // Calls of one kind see the rounds 0, 1, 2 and so on, so that counts and places come in turn.
    let before = |end: usize| kinds[..end].iter().filter(|other| **other == kind).count();
    let round = turn / kinds.len() * before(kinds.len()) + before(turn % kinds.len());
    let (count, place) = lent_and_place(random, kind, round);
    let jobs = any_jobs(random, count, rule.delay);
    let mut times = (rule.good_times)(random);
    let may_be_bad = matches!(kind, Kind::BadCount | Kind::BadPlace);
    if kind == Kind::BadTimes || may_be_bad && random.once_in(2) {
        times = (rule.bad_times)(random, &times);
    }
    Frame {
        head: EDIT,
        numbers: vec![place as u16, times.cost, times.period, times.deadline],
        blocks: vec![records_of_jobs(&jobs)],
    }
}
