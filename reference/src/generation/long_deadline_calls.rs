//! Calls of which most have a list with a deadline above its period, up to 60,000.

use crate::configuration::NOT_PLACED;
use crate::entries::edit::{edit_call, LONG_DEADLINE_EDITS};
use crate::entries::{
    bounds, key, mark, plan, read_configuration, read_jobs, write_configuration, write_jobs, EDIT,
};
use crate::generation::call::Parts;
use crate::generation::configured::{any_configured, make_full, Configured};
use crate::generation::job_calls::{any_list, Asked, CallRule, ListRule};
use crate::generation::job_faults::with_one_bad_time;
use crate::generation::layers::built;
use crate::generation::lists::range;
use crate::generation::long_deadlines::{set_period, with_long_deadlines, ABOVE_PERIODS};
use crate::generation::plans::{any_plan, planner_list, Deadlines};
use crate::generation::random::Random;
use crate::generation::rounds::{job_row, row, Kind, Row};
use crate::generation::runs::list_with_run;
use crate::generation::short_deadline_calls;
use crate::jobs::{Job, LONGEST_DEADLINE};

pub const LONG_DEADLINES: Kind = Kind {
    name: "deadlines above periods",
    cases: 1_800,
    round: &ROUND,
};

/// The refusals of an entry that is given a configuration and lent an output. Refusal 5, which is
/// the one about deadlines, comes most often in this kind.
const REFUSALS: [u8; 13] = [5, 3, 5, 7, 5, 2, 8, 5, 6, 9, 1, 10, 12];

const MARKER_REFUSALS: [u8; 13] = [5, 3, 5, 11, 5, 2, 8, 5, 6, 11, 1, 10, 12];

const ROUND: [Row; 9] = [
    job_row(&RULE, 4, &read_jobs::GIVEN, 5, &[5, 3, 5, 2, 5, 1]),
    job_row(&RULE, 4, &write_jobs::GIVEN, 5, &[5, 3, 5, 2, 5, 1, 12]),
    job_row(
        &RULE,
        4,
        &read_configuration::GIVEN,
        5,
        &[5, 3, 5, 7, 5, 2, 8, 5, 6, 9, 1, 10],
    ),
    job_row(&RULE, 4, &write_configuration::GIVEN, 5, &REFUSALS),
    job_row(&RULE, 14, &bounds::GIVEN, 8, &REFUSALS),
    job_row(&RULE, 12, &mark::GIVEN, 8, &MARKER_REFUSALS),
    job_row(&RULE, 12, &plan::GIVEN, 9, &[5, 3, 5, 6, 5, 2, 12]),
    row(EDIT, 3, |random, turn| {
        edit_call(random, turn, &LONG_DEADLINE_EDITS)
    }),
    job_row(&RULE, 3, &key::GIVEN, 8, &[5, 3, 5, 2, 5, 1]),
];

/// Once in so many calls the list's deadlines are up to its periods.
const CALLS_UP_TO_PERIODS: usize = 4;

pub const RULE: CallRule = CallRule {
    lists: |random| match random.once_in(CALLS_UP_TO_PERIODS) {
        true => &short_deadline_calls::LISTS,
        false => &LISTS,
    },
    bad_times: with_one_bad_time,
};

pub const LISTS: ListRule = ListRule {
    any: any_list_with_long_deadlines,
    configured,
    planned: |random, turn, count, fixed| {
        planner_list(random, turn, count, fixed, Deadlines::AbovePeriods)
    },
};

/// A list of any kind with a deadline above its period for one job or more.
fn any_list_with_long_deadlines(random: &mut Random, count: usize) -> Vec<Job> {
    let jobs = any_list(random, count);
    with_long_deadlines(random, jobs)
}

/// Sets one placed job's deadline to the largest response of its first run, or to one tick off.
fn tighten(random: &mut Random, list: &mut Configured) {
    let index = random.below(list.jobs.len());
    if list.settings[index].policy == NOT_PLACED {
        return;
    }
    let job = list.jobs[index];
    let largest = set_period(list, index, job.period).largest_response as u16;
    list.jobs[index].deadline = random.about(largest).clamp(job.cost, LONGEST_DEADLINE);
}

/// A list with a configuration that refusals 7 to 10 let by, full or with a job not placed.
fn configured(random: &mut Random, asked: &Asked, count: usize) -> Parts {
    let range = range(random);
    let full = asked.is_full(random, |random| !random.once_in(5));
    let kind = random.below(10);
    let mut list = match kind {
        0..=5 => list_with_run(random, asked.turn, count, range),
        6 | 7 => built(random, count, range, ABOVE_PERIODS),
        8 => any_plan(random, count.min(5), range, Deadlines::AbovePeriods),
        _ => {
            let jobs = any_list_with_long_deadlines(random, count);
            any_configured(random, jobs, range, full)
        }
    };
    if kind > 5 && random.once_in(2) {
        tighten(random, &mut list);
    }
    make_full(random, &mut list, range, full);
    Parts::of_list(list, range)
}
