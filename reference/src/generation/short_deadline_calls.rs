//! Calls on lists whose deadlines are up to the periods, but for a few with one deadline one tick
//! above, and without delays, but for a few with one delay.

use crate::entries::edit::{edit_call, EDITS};
use crate::entries::same_bytes::{short_blocks, SAME_BYTES};
use crate::entries::{
    bounds, key, mark, plan, read_configuration, read_jobs, write_configuration, write_jobs, EDIT,
};
use crate::generation::call::Parts;
use crate::generation::configured::{any_configured, make_full, Configured};
use crate::generation::job_calls::{any_list, Asked, CallRule, ListRule};
use crate::generation::job_faults::with_bad_times;
use crate::generation::layers::{built, UP_TO_PERIODS};
use crate::generation::lists::range;
use crate::generation::plans::{any_plan, planner_list, Deadlines};
use crate::generation::random::Random;
use crate::generation::rounds::{job_row, row, Kind, Row};
use crate::jobs::LONGEST_PERIOD;
use crate::response_time::first_bound;

pub const SHORT_DEADLINES: Kind = Kind {
    name: "deadlines up to periods",
    cases: 3_600,
    round: &ROUND,
};

/// The refusals of an entry that is given a configuration and lent an output.
const REFUSALS: [u8; 10] = [1, 2, 3, 5, 6, 7, 8, 9, 10, 12];

/// The marker's refusals repeat 11, which no other entry has, and 9, after which only 11 is about
/// single records.
const MARKER_REFUSALS: [u8; 15] = [1, 2, 3, 5, 6, 7, 8, 9, 9, 10, 11, 11, 11, 11, 12];

const ROUND: [Row; 10] = [
    job_row(&RULE, 6, &read_jobs::GIVEN, 5, &[1, 2, 3, 5]),
    job_row(&RULE, 5, &write_jobs::GIVEN, 4, &[1, 2, 3, 5, 12]),
    job_row(
        &RULE,
        6,
        &read_configuration::GIVEN,
        4,
        &[1, 2, 3, 5, 6, 7, 8, 9, 10],
    ),
    job_row(&RULE, 6, &write_configuration::GIVEN, 3, &REFUSALS),
    job_row(&RULE, 9, &bounds::GIVEN, 6, &REFUSALS),
    job_row(&RULE, 10, &mark::GIVEN, 4, &MARKER_REFUSALS),
    job_row(&RULE, 17, &plan::GIVEN, 8, &[1, 2, 3, 5, 6, 12]),
    row(SAME_BYTES, 3, short_blocks),
    row(EDIT, 4, |random, turn| edit_call(random, turn, &EDITS)),
    job_row(&RULE, 6, &key::GIVEN, 7, &[1, 2, 3, 5]),
];

pub const RULE: CallRule = CallRule {
    lists: |_| &LISTS,
    bad_times: with_bad_times,
};

pub const LISTS: ListRule = ListRule {
    any: any_list,
    configured,
    planned: |random, turn, count, fixed| {
        planner_list(random, turn, count, fixed, Deadlines::UpToPeriods)
    },
};

/// Sets one job's deadline to its first bound, or to one tick off.
fn tighten(random: &mut Random, list: &mut Configured) {
    let index = random.below(list.jobs.len());
    let bound = first_bound(&list.jobs, &list.settings, index);
    let job = &mut list.jobs[index];
    job.deadline = random.about(bound).clamp(job.cost, LONGEST_PERIOD);
    job.period = job.period.max(job.deadline);
}

/// A list with a configuration that refusals 7 to 10 let by, full or with a job not placed.
fn configured(random: &mut Random, asked: &Asked, count: usize) -> Parts {
    let range = range(random);
    let full = asked.is_full(random, |random| random.once_in(2));
    let mut list = match random.below(8) {
        0..=3 => built(random, count, range, UP_TO_PERIODS),
        4 => any_plan(random, count, range, Deadlines::UpToPeriods),
        _ => {
            let jobs = any_list(random, count);
            any_configured(random, jobs, range, full)
        }
    };
    if random.once_in(2) {
        tighten(random, &mut list);
    }
    make_full(random, &mut list, range, full);
    Parts::of_list(list, range)
}
