//! Lists with a configuration in which the two bounds of one job stand to each other as wanted. The
//! job shares its level, mostly with neighbours that have far less work than quanta.

use crate::configuration::QuantumRange;
use crate::generation::configured::{first_drawn, Configured};
use crate::generation::layers::{add_layer, add_members, built, Drawing, UP_TO_PERIODS};
use crate::generation::lists::stretched;
use crate::generation::long_deadlines::{
    first_run_by_recurrence, least_period, second_run_by_recurrence, set_period, RunOfJob,
};
use crate::generation::plans::Deadlines;
use crate::generation::random::Random;
use crate::generation::runs::add_upper_jobs;
use crate::generation::situations::{two_bounds, Situation};
use crate::jobs::{LONGEST_DEADLINE, LONGEST_PERIOD};
use crate::response_time::lesser_bound;

/// Scales of costs in turn, from single ticks up to costs of thousands of ticks.
const SCALES: [u16; 7] = [1, 20, 1, 4, 1, 100, 4];

/// The situations that lists are drawn for in turn.
const WANTED: [Situation; 10] = [
    Situation::SecondLess,
    Situation::SecondAlone,
    Situation::Equal,
    Situation::Neither,
    Situation::SecondLess,
    Situation::FirstAlone,
    Situation::SecondAlone,
    Situation::Equal,
    Situation::FirstLess,
    Situation::Neither,
];

/// The situations in which a job is served.
const SERVED: [Situation; 5] = [
    Situation::SecondLess,
    Situation::SecondAlone,
    Situation::FirstAlone,
    Situation::Equal,
    Situation::FirstLess,
];

/// What the layers of a list are drawn for, and from what.
#[derive(Clone, Copy)]
pub struct Wanted {
    /// How the bounds of a layer's first job stand to each other.
    pub situation: Situation,
    pub deadlines: Deadlines,
    pub drawing: Drawing,
}

/// The cost of a neighbour with this quantum beside a job that needs so many cycles: far less work
/// than the quantum, all that the neighbour is given in those cycles, or more. With as much as it
/// is given, both bounds of the job are the same if the neighbour is released once.
fn neighbour_cost(random: &mut Random, situation: Situation, quantum: u16, cycles: u16) -> u16 {
    let light = random.ticks(1, (quantum / 4).max(1));
    let given = cycles * quantum;
    match situation {
        Situation::SecondLess | Situation::SecondAlone => light,
        Situation::Equal => given,
        Situation::FirstLess | Situation::FirstAlone => given + random.ticks(1, 4 * quantum),
        Situation::Neither => random.choose(&[light, light, given]),
    }
}

/// Adds the jobs of a layer below all others and answers the place of the first, which has one of
/// the smaller quanta and needs several cycles. The others have the larger quanta.
fn add_uneven_members(
    random: &mut Random,
    list: &mut Configured,
    size: usize,
    wanted: Wanted,
) -> usize {
    let range = wanted.drawing.range;
    let middle = range.lowest + (range.highest - range.lowest) / 2;
    let cycles = random.ticks(1, 8) * wanted.drawing.scale;
    let start = add_members(random, list, size, wanted.drawing);
    for index in start..list.jobs.len() {
        let (least, most) = if index == start {
            (range.lowest, middle)
        } else {
            (middle, range.highest)
        };
        list.settings[index].quantum = random.byte(least, most);
        let quantum = u16::from(list.settings[index].quantum);
        list.jobs[index].cost = if index == start {
            (cycles - 1) * quantum + random.ticks(1, quantum)
        } else {
            neighbour_cost(random, wanted.situation, quantum, cycles)
        };
    }
    start
}

/// Gives a neighbour a period: from its first bound on or, if deadlines may be above periods, also
/// a shorter one. False if it has no first bound.
fn give_period(
    random: &mut Random,
    list: &mut Configured,
    index: usize,
    deadlines: Deadlines,
) -> bool {
    let bound = set_period(list, index, LONGEST_PERIOD).bound();
    let job = &mut list.jobs[index];
    job.period = if deadlines == Deadlines::AbovePeriods && random.once_in(2) {
        random.ticks(job.cost.max(bound / 3), bound.max(job.cost))
    } else {
        stretched(random, bound.max(job.cost))
    };
    bound != 0
}

/// Gives a neighbour a deadline from its bound on; false if it has no bound.
fn give_deadline(
    random: &mut Random,
    list: &mut Configured,
    index: usize,
    deadlines: Deadlines,
) -> bool {
    let longest = match deadlines {
        Deadlines::UpToPeriods => list.jobs[index].period,
        Deadlines::AbovePeriods => LONGEST_DEADLINE,
    };
    list.jobs[index].deadline = longest;
    let [first, second] = two_bounds(&list.jobs, &list.settings, index);
    let bound = lesser_bound(first, second);
    if bound == 0 {
        return false;
    }
    let any = random.ticks(bound, longest);
    list.jobs[index].deadline = random.choose(&[bound, bound, first.max(second), any]);
    true
}

/// Gives a layer's first job a period. If deadlines may be above periods, it is the least with
/// which one of the two runs closes by a later instance; false if there is none.
fn give_first_period(
    random: &mut Random,
    list: &mut Configured,
    index: usize,
    deadlines: Deadlines,
) -> bool {
    if deadlines == Deadlines::UpToPeriods {
        list.jobs[index].period = LONGEST_PERIOD;
        return true;
    }
    let instance = random.choose(&[1, 1, 2, 6, 20]);
    let runs: [RunOfJob; 2] = [first_run_by_recurrence, second_run_by_recurrence];
    let run_of_job = random.choose(&runs);
    let Some(least) = least_period(list, index, instance, run_of_job) else {
        return false;
    };
    list.jobs[index].period = least.max(list.jobs[index].cost);
    true
}

/// Gives a layer's first job times with which it is in the wanted situation; false if they do not.
fn give_first_times(
    random: &mut Random,
    list: &mut Configured,
    index: usize,
    wanted: Wanted,
) -> bool {
    if !give_first_period(random, list, index, wanted.deadlines) {
        return false;
    }
    list.jobs[index].deadline = LONGEST_DEADLINE;
    let bounds = two_bounds(&list.jobs, &list.settings, index);
    let (least, longest) = wanted.situation.deadlines(bounds);
    let least = least.max(list.jobs[index].cost);
    if least > longest {
        return false;
    }
    let any = random.ticks(least, longest);
    let deadline = random.choose(&[least, longest, any]);
    list.jobs[index].deadline = deadline;
    if wanted.deadlines == Deadlines::UpToPeriods {
        list.jobs[index].period = stretched(random, deadline);
    }
    let is_above = deadline > list.jobs[index].period;
    let bounds = two_bounds(&list.jobs, &list.settings, index);
    is_above == (wanted.deadlines == Deadlines::AbovePeriods)
        && Situation::of_bounds(bounds) == wanted.situation
}

/// Adds a layer below all others, whose first job is in the wanted situation and whose other jobs
/// are served; false if the draw does not give one.
fn add_uneven_layer(
    random: &mut Random,
    list: &mut Configured,
    size: usize,
    wanted: Wanted,
) -> bool {
    let start = add_uneven_members(random, list, size, wanted);
    let others = start + 1..start + size;
    let deadlines = wanted.deadlines;
    others
        .clone()
        .all(|index| give_period(random, list, index, deadlines))
        && give_first_times(random, list, start, wanted)
        && others
            .clone()
            .all(|index| give_deadline(random, list, index, deadlines))
}

/// Adds so many jobs on levels of their own, of which the lowest two may share a level instead;
/// false if the draw does not give them.
fn add_upper_layers(
    random: &mut Random,
    list: &mut Configured,
    count: usize,
    wanted: Wanted,
) -> bool {
    let sharing = if count >= 2 && random.once_in(2) {
        2
    } else {
        0
    };
    let shared = Wanted {
        situation: random.choose(&SERVED),
        ..wanted
    };
    add_upper_jobs(random, list, count - sharing, wanted.drawing)
        && (sharing == 0 || add_uneven_layer(random, list, sharing, shared))
}

/// A list with a layer whose first job is in the wanted situation, often with jobs above it and
/// sometimes with jobs below; none if the draw does not give one.
fn drawn(random: &mut Random, count: usize, wanted: Wanted) -> Option<Configured> {
    let size = random.choose(&[2, 2, 2, 3, 4]).min(count);
    let left = count - size;
    let lower = random.choose(&[0, 0, 1, 2]).min(left);
    let mut list = Configured::default();
    let is_drawn = add_upper_layers(random, &mut list, left - lower, wanted)
        && add_uneven_layer(random, &mut list, size, wanted)
        && (lower == 0
            || add_layer(
                random,
                &mut list,
                lower,
                wanted.drawing,
                UP_TO_PERIODS.times,
            ));
    is_drawn.then_some(list)
}

/// A list of two jobs or more with a full configuration, in which one job that shares its level is
/// in a wanted situation; none if no draw gives one.
pub fn list_with_wanted_situation(
    random: &mut Random,
    wanted: Wanted,
    count: usize,
) -> Option<Configured> {
    first_drawn(random, count, |random, count| drawn(random, count, wanted))
}

/// A list without delays in which one job that shares its level is in the situation that is in
/// turn. Its deadline is up to its period in one turn and above it in the other. If no draw gives a
/// list, it is a built one.
pub fn list_with_situation(
    random: &mut Random,
    turn: usize,
    count: usize,
    range: QuantumRange,
) -> Configured {
    let wanted = Wanted {
        situation: WANTED[turn % WANTED.len()],
        deadlines: [Deadlines::UpToPeriods, Deadlines::AbovePeriods][turn / WANTED.len() % 2],
        drawing: Drawing::without_delays(range, SCALES[turn % SCALES.len()]),
    };
    list_with_wanted_situation(random, wanted, count)
        .unwrap_or_else(|| built(random, count, range, UP_TO_PERIODS))
}
