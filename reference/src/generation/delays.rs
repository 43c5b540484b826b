//! Lists with delays, among them such that have a wanted effect on the bound of some job, and
//! whether the delays of a list matter.

use crate::configuration::{QuantumRange, Setting};
use crate::generation::configured::Configured;
use crate::generation::effects::{
    bound_by_recurrence, without_delays, without_other_delays, without_own_delay, Effect, EFFECTS,
};
use crate::generation::layers::{built, DelayRule, Drawing, LayerRule, UP_TO_PERIODS};
use crate::generation::light_neighbours::{list_with_wanted_situation, Wanted as WantedSituation};
use crate::generation::long_deadlines::{first_run_by_recurrence, ABOVE_PERIODS};
use crate::generation::plans::{affordable_plan, Deadlines};
use crate::generation::random::Random;
use crate::generation::runs::{list_with_wanted_run, Wanted, LAST};
use crate::generation::situations::Situation;
use crate::jobs::{Job, LONGEST_DEADLINE};
use crate::response_time::{End, INSTANCES};
use crate::sets::SetOrder;

/// How often a list is drawn until a job shows the wanted effect.
const ATTEMPTS: usize = 40;

/// Scales of costs in turn, from single ticks up to costs that are far above any delay.
const SCALES: [u16; 10] = [1, 4, 1, 20, 1, 100, 4, 400, 1, 3_000];

/// Rules for delays: a few ticks, for few jobs, up to some tens of ticks, any, and mostly long.
const DELAYS: [DelayRule; 5] = [
    |random| random.byte(0, 4),
    |random| match random.below(3) {
        0 => random.byte(1, 99),
        _ => 0,
    },
    |random| random.byte(0, 40),
    |random| random.byte(0, u8::MAX),
    |random| match random.below(3) {
        0 => 0,
        1 => u8::MAX,
        _ => random.byte(200, u8::MAX),
    },
];

/// Whether a job of a list has a delay.
pub fn has_delay(jobs: &[Job]) -> bool {
    jobs.iter().any(|job| job.delay != 0)
}

/// Whether the bounds in a configuration are other ones than without delays.
pub fn delays_change_bounds(jobs: &[Job], settings: &[Setting]) -> bool {
    let without = without_delays(jobs);
    (0..jobs.len()).any(|index| {
        let bound = bound_by_recurrence(jobs, settings, index);
        bound != bound_by_recurrence(&without, settings, index)
    })
}

/// Whether a plan's bounds are other ones than those of the plan without delays, the sets being in
/// one order. They are not said to be if the search for that plan is not affordable.
pub fn delays_change_plan(
    jobs: &[Job],
    range: QuantumRange,
    order: SetOrder,
    bounds: &[u16],
) -> bool {
    let without = affordable_plan(&without_delays(jobs), range, order);
    without.is_some_and(|plan| plan.bounds != bounds)
}

/// The list with a delay for one job or more: a few ticks, up to what the deadline leaves beside
/// the cost, or any.
pub fn with_delays(random: &mut Random, mut jobs: Vec<Job>) -> Vec<Job> {
    let always = random.below(jobs.len());
    let kind = random.below(4);
    for (index, job) in jobs.iter_mut().enumerate() {
        if index != always && random.once_in(3) {
            continue;
        }
        let left = (job.deadline - job.cost).clamp(1, u16::from(u8::MAX)) as u8;
        job.delay = match kind {
            0 => random.byte(1, 4),
            1 => random.byte(1, left),
            2 => random.byte(1, u8::MAX),
            _ => random.choose(&[1, left, u8::MAX]),
        };
    }
    jobs
}

/// Gives a job of the list a delay if none has one.
pub fn ensure_delay(random: &mut Random, jobs: &mut [Job]) {
    if !has_delay(jobs) {
        jobs[random.below(jobs.len())].delay = random.byte(1, 9);
    }
}

/// Layers with delays: with deadlines up to periods, and with deadlines above periods as well.
pub const LAYER_RULES: [LayerRule; 2] = [
    LayerRule {
        delay: |random| random.choose(&DELAYS),
        ..UP_TO_PERIODS
    },
    LayerRule {
        delay: |random| random.choose(&DELAYS),
        ..ABOVE_PERIODS
    },
];

/// A list built layer by layer whose jobs have delays.
pub fn built_with_delays(random: &mut Random, count: usize, range: QuantumRange) -> Configured {
    let rule = random.choose(&LAYER_RULES);
    let mut list = built(random, count, range, rule);
    ensure_delay(random, &mut list.jobs);
    list
}

/// Gives a job a deadline with which its bound is 0, and not without some of the delays; false if
/// there is none up to the most. Both lists are the same but for those delays.
fn give_deadline_between(
    random: &mut Random,
    list: &mut Configured,
    index: usize,
    mut without: Vec<Job>,
    most: u16,
) -> bool {
    without[index].deadline = LONGEST_DEADLINE;
    let least = bound_by_recurrence(&without, &list.settings, index);
    list.jobs[index].deadline = LONGEST_DEADLINE;
    let most = match bound_by_recurrence(&list.jobs, &list.settings, index) {
        0 => most,
        bound => most.min(bound - 1),
    };
    if least == 0 || least > most {
        return false;
    }
    let any = random.ticks(least, most);
    list.jobs[index].deadline = random.choose(&[least, most, any]);
    true
}

/// A list in which a job's bound is 0 by delays alone; none if the draw does not give one.
fn drawn_over_deadline(
    random: &mut Random,
    effect: Effect,
    count: usize,
    range: QuantumRange,
) -> Option<Configured> {
    let mut list = built_with_delays(random, count, range);
    let start = random.below(list.jobs.len());
    for index in (start..list.jobs.len()).chain(0..start) {
        let job = list.jobs[index];
        let (without, most) = match effect {
            Effect::OverByOthers => (without_other_delays(&list.jobs, index), LONGEST_DEADLINE),
            Effect::OverByOwn => (without_own_delay(&list.jobs, index), LONGEST_DEADLINE),
            _ => (without_own_delay(&list.jobs, index), u16::from(job.delay)),
        };
        if give_deadline_between(random, &mut list, index, without, most) {
            return Some(list);
        }
        list.jobs[index] = job;
    }
    None
}

/// Gives the first job whose first run closes at instance 63 the delay with which its finish there
/// plus J is so many ticks past 64·T, and a deadline that its responses keep to; false if there is
/// no such job or no such delay.
fn give_last_delay(random: &mut Random, list: &mut Configured, ticks_past: u64) -> bool {
    for index in 0..list.jobs.len() {
        let run = first_run_by_recurrence(&list.jobs, &list.settings, index);
        if run.end != End::Closed || run.last_instance != LAST {
            continue;
        }
        let job = &mut list.jobs[index];
        let delay = INSTANCES * u64::from(job.period) + ticks_past - run.finish;
        let largest = run.largest_response - u64::from(job.delay) + delay;
        if delay > u64::from(u8::MAX) || largest > u64::from(LONGEST_DEADLINE) {
            return false;
        }
        job.delay = delay as u8;
        job.deadline = random.choose(&[largest as u16, LONGEST_DEADLINE]);
        return true;
    }
    false
}

/// A list in which a run reaches instance 63 and closes there, or goes past 64·T by a few ticks;
/// none if the draw does not give one.
fn drawn_to_last(
    random: &mut Random,
    effect: Effect,
    count: usize,
    drawing: Drawing,
) -> Option<Configured> {
    let mut list = list_with_wanted_run(random, Wanted::Closes(LAST, LAST), count, drawing)?;
    let ticks_past = match effect {
        Effect::ClosesAtLast => 0,
        _ => random.choose(&[1, 1, 2, 9]),
    };
    let is_moved = effect == Effect::PastLast || random.once_in(2);
    (!is_moved || give_last_delay(random, &mut list, ticks_past)).then_some(list)
}

/// A list with a layer in which a job's two bounds stand to each other in one of these ways; none
/// if the draw does not give one.
fn drawn_in_situation(
    random: &mut Random,
    situations: &[Situation],
    count: usize,
    drawing: Drawing,
) -> Option<Configured> {
    // Costs in such a layer are up to 8 cycles of a quantum times the scale.
    let scale = drawing.scale.min(100);
    let wanted = WantedSituation {
        situation: random.choose(situations),
        deadlines: random.choose(&[Deadlines::UpToPeriods, Deadlines::AbovePeriods]),
        drawing: Drawing { scale, ..drawing },
    };
    list_with_wanted_situation(random, wanted, count)
}

/// A list for an effect; none if the draw does not give one. It may still not show the effect.
fn drawn(
    random: &mut Random,
    effect: Effect,
    count: usize,
    drawing: Drawing,
) -> Option<Configured> {
    let (less, alone) = (Situation::SecondLess, Situation::SecondAlone);
    let second = [less, alone, alone];
    let first = [Situation::FirstLess, Situation::FirstAlone];
    let wanted = match effect {
        Effect::OverByOthers | Effect::OverByOwn | Effect::DelayFromDeadlineOn => {
            return drawn_over_deadline(random, effect, count, drawing.range)
        }
        Effect::ClosesAtLast | Effect::PastLast => {
            return drawn_to_last(random, effect, count, drawing)
        }
        Effect::SecondRaised => return drawn_in_situation(random, &second, count, drawing),
        Effect::FirstInstead => return drawn_in_situation(random, &first, count, drawing),
        Effect::RaisedByAbove if random.once_in(2) => {
            return Some(built_with_delays(random, count, drawing.range))
        }
        Effect::RaisedByAbove => Wanted::Closes(0, 1),
        Effect::DelayFromPeriodOn | Effect::KeptOpen => Wanted::Closes(1, 20),
        Effect::ReachedLater => Wanted::LargestInside,
    };
    list_with_wanted_run(random, wanted, count, drawing)
}

/// A list of two jobs or more with delays and a full configuration, in which some job shows the
/// effect that is in turn. If no draw gives one, it is a built list.
pub fn list_with_effect(
    random: &mut Random,
    turn: usize,
    count: usize,
    range: QuantumRange,
) -> Configured {
    let effect = EFFECTS[turn % EFFECTS.len()];
    for _ in 0..ATTEMPTS {
        let drawing = Drawing {
            range,
            scale: SCALES[turn % SCALES.len()],
            delay: random.choose(&DELAYS),
        };
        if let Some(list) = drawn(random, effect, count, drawing) {
            if effect.is_shown_by_some(&list.jobs, &list.settings) {
                return list;
            }
        }
    }
    built_with_delays(random, count, range)
}
