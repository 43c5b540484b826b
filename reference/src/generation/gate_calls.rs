//! Calls of the start gate: accepted ones, ones past its limits, calls with faults within the limits
//! and past them, and worked ones.

use crate::configuration::{QuantumRange, ROUND_ROBIN};
use crate::entries::{gate_mark, gate_plan, GATE_MARK, GATE_PLAN};
use crate::frames::Frame;
use crate::gate::Limits;
use crate::generation::call::{accepted_input, Call, Given, Parts};
use crate::generation::configured::{any_configured, Configured, DrawList};
use crate::generation::delay_calls::{self, any_list_with_delays, any_parts_in};
use crate::generation::delays::list_with_effect;
use crate::generation::gate_sizes::{Size, PAST};
use crate::generation::gate_worked::{worked_mark, worked_plan};
use crate::generation::job_calls::{faults_in_turn, input_with_faults, Asked, ListRule};
use crate::generation::job_faults::with_one_bad_time;
use crate::generation::layers::built;
use crate::generation::light_neighbours::list_with_situation;
use crate::generation::period_lists::RULES_OF_LAYERS;
use crate::generation::random::Random;
use crate::generation::rounds::{row, Kind, Row};
use crate::generation::runs::list_with_run;
use crate::generation::setting_faults::QUANTUM;
use crate::generation::{long_deadline_calls, short_deadline_calls};
use crate::jobs::Job;

pub const START_GATE: Kind = Kind {
    name: "start gate",
    cases: 900,
    round: &ROUND,
};

const ROUND: [Row; 11] = [
    row(GATE_PLAN, 12, accepted_plan),
    row(GATE_MARK, 10, accepted_mark),
    row(GATE_PLAN, 4, |random, turn| {
        past_limits(random, &gate_plan::GIVEN, turn)
    }),
    row(GATE_MARK, 4, |random, turn| {
        past_limits(random, &gate_mark::GIVEN, turn)
    }),
    row(GATE_PLAN, 6, |random, turn| {
        let faults = faults_in_turn(&PLAN_REFUSALS, turn);
        gate_call(random, &gate_plan::GIVEN, turn, faults)
    }),
    row(GATE_MARK, 6, |random, turn| {
        let faults = faults_in_turn(&MARK_REFUSALS, turn);
        gate_call(random, &gate_mark::GIVEN, turn, faults)
    }),
    row(GATE_PLAN, 4, |random, turn| {
        let faults = past_with_another(random, &PLAN_REFUSALS, turn);
        gate_call(random, &gate_plan::GIVEN, turn, faults)
    }),
    row(GATE_MARK, 4, |random, turn| {
        let faults = past_with_another(random, &MARK_REFUSALS, turn);
        gate_call(random, &gate_mark::GIVEN, turn, faults)
    }),
    row(GATE_MARK, 2, quantum_at_limit),
    row(GATE_PLAN, 4, worked_plan),
    row(GATE_MARK, 4, worked_mark),
];

/// The refusals of both entries in the order in which they are sought.
const PLAN_REFUSALS: [u8; 7] = [1, 2, 3, 5, 6, 15, 12];
const MARK_REFUSALS: [u8; 12] = [1, 2, 3, 5, 6, 15, 7, 8, 9, 10, 11, 12];

/// The lists of accepted plans in turn: with deadlines up to periods, with deadlines above them, and
/// with delays. With the gate's jobs and quanta every search is affordable: sets of up to four jobs
/// have at most 16 to the power of 4 lists of quanta.
const PLANNED: [&ListRule; 3] = [
    &short_deadline_calls::LISTS,
    &long_deadline_calls::LISTS,
    &delay_calls::LISTS,
];

/// The lists of accepted marks in turn.
const MARKED: [DrawList; 5] = [
    list_with_effect,
    list_with_situation,
    list_with_run,
    built_list,
    any_list,
];

/// A list with a configuration that passes.
fn built_list(random: &mut Random, _: usize, count: usize, range: QuantumRange) -> Configured {
    let rule = random.choose(&RULES_OF_LAYERS);
    built(random, count, range, rule)
}

/// A list of any kind with any full configuration.
fn any_list(random: &mut Random, _: usize, count: usize, range: QuantumRange) -> Configured {
    let jobs = any_list_with_delays(random, count);
    any_configured(random, jobs, range, true)
}

/// A plan within the limits, its list being drawn for what the planner makes of it.
fn accepted_plan(random: &mut Random, turn: usize) -> Frame {
    let count = Size::Within.job_count(random, 1);
    let range = Size::Within.range(random);
    let rule = PLANNED[turn % PLANNED.len()];
    let (jobs, range) = (rule.planned)(random, turn / PLANNED.len(), count, Some(range));
    accepted_input(random, &gate_plan::GIVEN, &Parts::of_jobs(jobs, range))
}

/// A mark within the limits. What lists are drawn for needs two jobs or more, so one job is in a
/// built list or in any.
fn accepted_mark(random: &mut Random, turn: usize) -> Frame {
    let count = Size::Within.job_count(random, 1);
    let range = Size::Within.range(random);
    let draw = match count {
        1 => random.choose(&[built_list, any_list]),
        _ => MARKED[turn % MARKED.len()],
    };
    let list = draw(random, turn / MARKED.len(), count, range);
    accepted_input(random, &gate_mark::GIVEN, &Parts::of_list(list, range))
}

/// The numbers of jobs past the limit in turn.
const JOBS_PAST: [usize; 5] = [5, 6, 5, 7, 8];

/// A call that is past the limits and that the mats accept.
fn past_limits(random: &mut Random, given: &'static Given, turn: usize) -> Frame {
    let size = PAST[turn % PAST.len()];
    let count = match size {
        Size::PastByQuantum => size.job_count(random, 1),
        _ => JOBS_PAST[turn / PAST.len() % JOBS_PAST.len()],
    };
    let range = size.range(random);
    let parts = any_parts_in(random, range, count, |_| true);
    accepted_input(random, given, &parts)
}

/// Refusal 15 and another one, which is in turn, and each one later than the first of the two once
/// in four times.
fn past_with_another(random: &mut Random, refusals: &[u8], turn: usize) -> Vec<u8> {
    let others: Vec<u8> = refusals.iter().copied().filter(|one| *one != 15).collect();
    let other = others[turn % others.len()];
    let is_wanted = |refusal: &u8| [15, other].contains(refusal);
    let from_first = refusals.iter().skip_while(|refusal| !is_wanted(refusal));
    let mut faults: Vec<u8> = from_first.copied().collect();
    faults.retain(|fault| is_wanted(fault) || random.once_in(4));
    faults
}

/// The job with a cost of 0 or with other times that refusal 5 names.
fn with_bad_times(random: &mut Random, job: &Job) -> Job {
    match random.below(2) {
        0 => Job { cost: 0, ..*job },
        _ => with_one_bad_time(random, job),
    }
}

/// Gives a call that has refusal 6 a range that has it and keeps its highest quantum, so that a call
/// past the limits stays so.
fn keep_highest(random: &mut Random, input: &mut Frame, highest: u8) {
    let lowest = random.choose(&[0, highest + 1]);
    input.numbers = [lowest, highest].map(u16::from).to_vec();
}

/// The call of an entry with these faults. It is past the limits if 15 is one of them.
fn gate_call(random: &mut Random, given: &'static Given, turn: usize, faults: Vec<u8>) -> Frame {
    let asked = Asked {
        given,
        turn,
        faults,
    };
    let is_past = asked.faults.contains(&15);
    let size = match is_past {
        true => random.choose(&PAST),
        false => Size::Within,
    };
    let count = size.job_count(random, asked.least_jobs());
    let range = size.range(random);
    let parts = any_parts_in(random, range, count, |random| {
        asked.is_full(random, |_| true)
    });
    let mut input = input_with_faults(random, &asked, &parts, with_bad_times);
    if is_past && asked.faults.contains(&6) && random.once_in(2) {
        keep_highest(random, &mut input, range.highest);
    }
    input
}

/// A mark with a shared level, in which the highest quantum and the quantum of a record are the
/// limit or one above it, in turn: it is accepted, or gets 9 where the record's alone is above, or
/// 15 where the highest is.
fn quantum_at_limit(random: &mut Random, turn: usize) -> Frame {
    let limit = Limits::GATE.highest_quantum;
    let range = QuantumRange {
        lowest: random.byte(1, limit),
        highest: limit,
    };
    loop {
        let count = Size::Within.job_count(random, 2);
        let parts = any_parts_in(random, range, count, |_| true);
        let mut settings = parts.settings.iter();
        if let Some(record) = settings.position(|setting| setting.policy == ROUND_ROBIN) {
            let mut call = Call::new(random, &gate_mark::GIVEN, &parts);
            call.setting_records[record][QUANTUM] = limit + (turn % 2) as u8;
            call.high = limit + (turn / 2 % 2) as u8;
            return call.into_input(random);
        }
    }
}
