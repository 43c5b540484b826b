//! Calls on lists of which most have a layer with neighbours that have far less work than quanta:
//! bounds, marks, plans and keys, all of them accepted.

use crate::configuration::{QuantumRange, LONGEST_QUANTUM};
use crate::entries::{bounds, key, mark, plan, BOUNDS, KEY, MARK, PLAN};
use crate::generation::call::{accepted_input, Parts};
use crate::generation::configured::leave_layer_out;
use crate::generation::light_neighbours::list_with_situation;
use crate::generation::lists::range;
use crate::generation::plans::{affordable, planner_list, Deadlines};
use crate::generation::random::Random;
use crate::generation::rounds::{row, Kind, Row};
use crate::jobs::MOST_JOBS;
use crate::key::KEY_RANGE;

pub const LIGHT_NEIGHBOURS: Kind = Kind {
    name: "light neighbours",
    cases: 900,
    round: &ROUND,
};

const ROUND: [Row; 4] = [
    row(BOUNDS, 26, |random, turn| {
        let mut parts = configured(random, turn);
        if random.once_in(6) {
            leave_layer_out(random, &mut parts.settings);
        }
        accepted_input(random, &bounds::GIVEN, &parts)
    }),
    row(MARK, 22, |random, turn| {
        let parts = configured(random, turn);
        accepted_input(random, &mark::GIVEN, &parts)
    }),
    row(PLAN, 10, |random, turn| {
        let parts = planned(random, turn);
        accepted_input(random, &plan::GIVEN, &parts)
    }),
    row(KEY, 2, |random, turn| {
        let count = job_count(random);
        let list = list_with_situation(random, turn, count, KEY_RANGE);
        accepted_input(random, &key::GIVEN, &Parts::of_jobs(list.jobs, KEY_RANGE))
    }),
];

/// A quantum range, mostly one from small quanta to large ones.
pub fn uneven_range(random: &mut Random) -> QuantumRange {
    if random.once_in(3) {
        return range(random);
    }
    QuantumRange {
        lowest: random.byte(1, 8),
        highest: random.choose(&[32, 48, LONGEST_QUANTUM]),
    }
}

/// A number of jobs with which a level can be shared.
fn job_count(random: &mut Random) -> usize {
    random.between(2, MOST_JOBS)
}

/// Jobs with a full configuration, and the range.
fn configured(random: &mut Random, turn: usize) -> Parts {
    let count = job_count(random);
    let range = uneven_range(random);
    Parts::of_list(list_with_situation(random, turn, count, range), range)
}

/// Jobs and a range for the planner. As the planner puts a job alone wherever it can, most lists
/// with light neighbours get no shared level; every third list is drawn for its outcome.
fn planned(random: &mut Random, turn: usize) -> Parts {
    let count = job_count(random);
    if turn % 3 == 2 {
        let deadlines = random.choose(&[Deadlines::UpToPeriods, Deadlines::AbovePeriods]);
        let (jobs, range) = planner_list(random, turn / 3, count, None, deadlines);
        return Parts::of_jobs(jobs, range);
    }
    let range = uneven_range(random);
    let jobs = list_with_situation(random, turn, count, range).jobs;
    let (range, _) = affordable(&jobs, range);
    Parts::of_jobs(jobs, range)
}
