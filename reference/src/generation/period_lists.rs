//! Lists whose plan depends on the order of the sets: they are drawn until a wrong order would give
//! another answer.

use crate::configuration::{QuantumRange, Setting, ROUND_ROBIN};
use crate::generation::configured::Configured;
use crate::generation::delays::LAYER_RULES;
use crate::generation::layers::{
    add_layer, built, deadline_from, Drawing, LayerRule, UP_TO_PERIODS,
};
use crate::generation::lists::{give_ids, job_of_times, light, range as any_range};
use crate::generation::long_deadlines::{set_period, ABOVE_PERIODS};
use crate::generation::period_shapes::Shape;
use crate::generation::plans::ListAndRange;
use crate::generation::random::Random;
use crate::generation::searches::{Searches, Steps};
use crate::jobs::{Job, LONGEST_DEADLINE, MOST_JOBS};
use crate::planner::RULES;
use crate::sets::SetOrder;

/// How often a list is drawn until it tells the wrong order.
const ATTEMPTS: usize = 600;

/// Layers without delays and with them, with deadlines up to periods and above them.
pub const RULES_OF_LAYERS: [LayerRule; 4] =
    [UP_TO_PERIODS, ABOVE_PERIODS, LAYER_RULES[0], LAYER_RULES[1]];

/// Scales of costs, and those with which sums of two periods do not fit in two bytes.
const SCALES: [u16; 5] = [1, 4, 4, 20, 100];
const LONG_SCALES: [u16; 3] = [1_000, 2_000, 3_000];

/// What a list is drawn for.
#[derive(Clone, Copy)]
pub struct Wanted {
    pub shape: Shape,
    /// The wrong order that the list is to tell.
    pub order: SetOrder,
    /// Whether the steps by the wrong order give another answer than the right ones.
    pub differ: fn(&Steps, &Steps) -> bool,
}

/// Jobs on levels of their own that cost a tick or two and have no more slack than each other's
/// costs, so that they fit below each other and below no other job. If two are stuck, these have no
/// slack at all, and the planner stops short at them.
fn top_jobs(random: &mut Random, count: usize, are_stuck: bool) -> Configured {
    let costs: Vec<u16> = (0..count).map(|_| random.ticks(1, 2)).collect();
    let sum: u16 = costs.iter().sum();
    let mut list = Configured::default();
    for (level, cost) in (1..).zip(costs) {
        let deadline = if are_stuck && level <= 2 { cost } else { sum };
        let period = random.ticks(20, 600) * random.choose(&[1, 1, 1, 100]);
        list.push_alone(job_of_times(cost, period, deadline), level);
    }
    list
}

/// A layer below a few light jobs. It takes most of the processor, so that often none of its jobs
/// fits alone. None if the rule has no times for a job.
fn full_layer(
    random: &mut Random,
    count: usize,
    drawing: Drawing,
    rule: LayerRule,
) -> Option<Configured> {
    let size = random.choose(&[2, 2, 3, 3, 4, 5]).min(count);
    let are_stuck = random.once_in(4);
    let mut list = top_jobs(random, count - size, are_stuck);
    add_layer(random, &mut list, size, drawing, rule.times).then_some(list)
}

/// The jobs of the lowest level.
fn lowest_layer(settings: &[Setting]) -> Vec<usize> {
    let lowest = settings.iter().map(|setting| setting.level).max();
    let mut layer: Vec<usize> = (0..settings.len()).collect();
    layer.retain(|index| Some(settings[*index].level) == lowest);
    layer
}

/// Gives the jobs that share a level deadlines at their first bounds or a little above, as their
/// periods have changed; false if a job has no first bound.
fn give_deadlines(random: &mut Random, list: &mut Configured) -> bool {
    for index in 0..list.jobs.len() {
        if list.settings[index].policy == ROUND_ROBIN {
            let period = list.jobs[index].period;
            let bound = set_period(list, index, period).bound();
            if bound == 0 {
                return false;
            }
            list.jobs[index].deadline = deadline_from(random, bound).min(LONGEST_DEADLINE);
        }
    }
    true
}

/// A list of a shape; none if the draw does not give one. Jobs with equal periods share a level
/// only where delays keep them from fitting below each other.
fn drawn(random: &mut Random, shape: Shape, range: QuantumRange) -> Option<Vec<Job>> {
    let count = random.between(2, MOST_JOBS);
    let (rule, scale) = match shape {
        Shape::AllEqual => (random.choose(&LAYER_RULES), random.choose(&SCALES)),
        Shape::Long => (random.choose(&RULES_OF_LAYERS), random.choose(&LONG_SCALES)),
        _ => (random.choose(&RULES_OF_LAYERS), random.choose(&SCALES)),
    };
    let drawing = Drawing {
        range,
        scale,
        delay: (rule.delay)(random),
    };
    let mut list = match random.below(5) {
        0 => built(random, count, range, rule),
        _ => full_layer(random, count, drawing, rule)?,
    };
    let layer = lowest_layer(&list.settings);
    let is_given = shape.give(random, &mut list.jobs, &layer) && give_deadlines(random, &mut list);
    let mut jobs = list.jobs;
    shape.arrange(random, &mut jobs);
    give_ids(random, &mut jobs);
    (is_given && shape.is_shown_by(&jobs)).then_some(jobs)
}

impl Wanted {
    /// Whether a list tells the wrong order. It is not said to if a search is not affordable.
    fn is_told_by(&self, jobs: &[Job], range: QuantumRange) -> bool {
        let mut searches = Searches::new(jobs, range);
        let right = searches.steps(RULES.order);
        let wrong = searches.steps(self.order);
        matches!((right, wrong), (Ok(right), Ok(wrong)) if (self.differ)(&right, &wrong))
    }

    /// A list that tells the wrong order, with its range; a given range is kept. If no draw gives
    /// one, it is a light list.
    pub fn list(&self, random: &mut Random, fixed: Option<QuantumRange>) -> ListAndRange {
        for _ in 0..ATTEMPTS {
            let range = fixed.unwrap_or_else(|| any_range(random));
            let jobs = drawn(random, self.shape, range);
            if let Some(jobs) = jobs.filter(|jobs| self.is_told_by(jobs, range)) {
                return (jobs, range);
            }
        }
        let count = random.between(2, MOST_JOBS);
        let mut jobs = light(random, count);
        give_ids(random, &mut jobs);
        (jobs, fixed.unwrap_or_else(|| any_range(random)))
    }
}
