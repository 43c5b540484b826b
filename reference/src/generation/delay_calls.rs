//! Calls on lists with delays, most of them accepted.

use crate::configuration::QuantumRange;
use crate::entries::edit::{edit_call, DELAY_EDITS};
use crate::entries::{
    bounds, key, mark, plan, read_configuration, read_jobs, write_configuration, write_jobs, EDIT,
    READ_CONFIGURATION, WRITE_CONFIGURATION,
};
use crate::generation::call::Parts;
use crate::generation::configured::{any_configured, leave_layer_out, Configured};
use crate::generation::delays::{
    built_with_delays, delays_change_plan, ensure_delay, list_with_effect, with_delays, LAYER_RULES,
};
use crate::generation::job_calls::{any_list, Asked, CallRule, ListRule};
use crate::generation::job_faults::with_one_bad_time;
use crate::generation::layers::stuck_on_top;
use crate::generation::light_neighbour_calls::uneven_range;
use crate::generation::lists::range;
use crate::generation::long_deadlines::with_long_deadlines;
use crate::generation::plans::{list_with_outcome, Deadlines, Outcome, DRAWING_ORDER};
use crate::generation::random::Random;
use crate::generation::rounds::{job_row, row, Kind, Row};
use crate::jobs::Job;
use crate::planner::Plan;

pub const DELAYS: Kind = Kind {
    name: "delays",
    cases: 900,
    round: &ROUND,
};

/// The refusals of an entry that is given a configuration and lent an output. Refusal 2, which
/// concerns the id alone, comes most often in this kind.
const REFUSALS: [u8; 13] = [2, 5, 2, 8, 3, 2, 6, 9, 2, 10, 7, 1, 12];

const MARKER_REFUSALS: [u8; 13] = [2, 11, 2, 5, 2, 8, 3, 2, 6, 9, 2, 10, 12];

const ROUND: [Row; 9] = [
    job_row(&RULE, 3, &read_jobs::GIVEN, 6, &[2, 5, 2, 3, 2, 1]),
    job_row(&RULE, 3, &write_jobs::GIVEN, 6, &[2, 5, 2, 3, 2, 12, 1]),
    job_row(
        &RULE,
        2,
        &read_configuration::GIVEN,
        6,
        &[2, 5, 2, 8, 3, 2, 6, 9, 2, 10, 7, 1],
    ),
    job_row(&RULE, 2, &write_configuration::GIVEN, 6, &REFUSALS),
    job_row(&RULE, 17, &bounds::GIVEN, 9, &REFUSALS),
    job_row(&RULE, 14, &mark::GIVEN, 9, &MARKER_REFUSALS),
    job_row(&RULE, 12, &plan::GIVEN, 9, &[2, 5, 2, 3, 2, 6, 12]),
    row(EDIT, 4, |random, turn| {
        edit_call(random, turn, &DELAY_EDITS)
    }),
    job_row(&RULE, 3, &key::GIVEN, 8, &[2, 5, 2, 3, 2, 1]),
];

pub const RULE: CallRule = CallRule {
    lists: |_| &LISTS,
    bad_times: with_one_bad_time,
};

pub const LISTS: ListRule = ListRule {
    any: any_list_with_delays,
    configured,
    planned: |random, turn, count, fixed| {
        list_with_outcome(random, turn, count, fixed, planner_list, are_shown_by)
    },
};

/// A list with a wanted effect has one of so many turns.
const TURNS_OF_EFFECTS: usize = 1_000;

/// A list with delays of any kind, without regard to what they do.
pub fn any_list_with_delays(random: &mut Random, count: usize) -> Vec<Job> {
    let mut jobs = any_list(random, count);
    if random.once_in(2) {
        jobs = with_long_deadlines(random, jobs);
    }
    with_delays(random, jobs)
}

/// A list of any kind with a configuration of any levels, which is full or not as it is drawn.
pub fn any_parts(
    random: &mut Random,
    count: usize,
    is_full: impl Fn(&mut Random) -> bool,
) -> Parts {
    let range = range(random);
    any_parts_in(random, range, count, is_full)
}

/// The same in a range.
pub fn any_parts_in(
    random: &mut Random,
    range: QuantumRange,
    count: usize,
    is_full: impl Fn(&mut Random) -> bool,
) -> Parts {
    let jobs = any_list_with_delays(random, count);
    let full = is_full(random);
    Parts::of_list(any_configured(random, jobs, range, full), range)
}

/// A list with a full configuration, in most cases one in which a delay has the effect in turn.
fn list_for_bounds(
    random: &mut Random,
    turn: usize,
    count: usize,
    range: QuantumRange,
) -> Configured {
    if count == 1 {
        return built_with_delays(random, count, range);
    }
    if random.once_in(12) {
        let jobs = any_list_with_delays(random, count);
        return any_configured(random, jobs, range, true);
    }
    list_with_effect(random, turn, count, range)
}

/// A list with a configuration that refusals 7 to 10 let by. What delays do shows in bounds, so the
/// lists of entries that answer none are drawn without regard to it.
fn configured(random: &mut Random, asked: &Asked, count: usize) -> Parts {
    if matches!(asked.given.entry, READ_CONFIGURATION | WRITE_CONFIGURATION) {
        return any_parts(random, count, |random| random.once_in(2));
    }
    let range = uneven_range(random);
    let mut list = list_for_bounds(random, asked.turn, count, range);
    let is_full = asked.is_full(random, |random| !random.once_in(8));
    if !is_full {
        leave_layer_out(random, &mut list.settings);
    }
    Parts::of_list(list, range)
}

/// A list with delays for the planner.
fn planner_list(
    random: &mut Random,
    count: usize,
    range: QuantumRange,
    wanted: Option<Outcome>,
) -> Vec<Job> {
    let deadlines = random.choose(&[Deadlines::UpToPeriods, Deadlines::AbovePeriods]);
    match (random.below(8), wanted) {
        (0..=2, Some(Outcome::StoppedShort)) | (_, Some(Outcome::StoppedShortSharing)) => {
            let rule = random.choose(&LAYER_RULES);
            let mut jobs = stuck_on_top(random, count, range, rule);
            ensure_delay(random, &mut jobs);
            jobs
        }
        (0..=2, None | Some(Outcome::PlacedAlone)) => {
            let turn = random.below(TURNS_OF_EFFECTS);
            list_with_effect(random, turn, count, range).jobs
        }
        (0..=5, _) => built_with_delays(random, count, range).jobs,
        _ => {
            let jobs = deadlines.list(random, count, range, wanted);
            with_delays(random, jobs)
        }
    }
}

/// Whether the delays of a list change its plan.
fn are_shown_by(jobs: &[Job], range: QuantumRange, plan: &Plan) -> bool {
    delays_change_plan(jobs, range, DRAWING_ORDER, &plan.bounds)
}
