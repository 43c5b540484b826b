//! Lists built layer by layer together with a configuration that passes, with deadlines at the
//! first bounds or close to them.

use crate::configuration::{QuantumRange, ROUND_ROBIN};
use crate::generation::configured::{any_configured, member_setting, mixed, reorder, Configured};
use crate::generation::lists::{give_ids, job_of_times, light, stretched, SCALES};
use crate::generation::random::Random;
use crate::jobs::{Job, LONGEST_PERIOD};
use crate::response_time::first_bound;

/// How often a list is built anew when there are no times for some job.
const ATTEMPTS: usize = 60;

/// A rule that draws the delay of a job.
pub type DelayRule = fn(&mut Random) -> u8;

/// The rule of jobs without delays.
pub const NO_DELAY: DelayRule = |_| 0;

/// What the jobs of a layer are drawn from.
#[derive(Clone, Copy)]
pub struct Drawing {
    /// The quanta of jobs that share a level.
    pub range: QuantumRange,
    /// Costs are up to about ten times the scale.
    pub scale: u16,
    pub delay: DelayRule,
}

impl Drawing {
    /// A drawing of jobs without delays.
    pub fn without_delays(range: QuantumRange, scale: u16) -> Drawing {
        Drawing {
            range,
            scale,
            delay: NO_DELAY,
        }
    }
}

/// A rule that gives the job at an index its period and its deadline, the layers above and the
/// costs of its own layer being drawn; false if there are none that it wants.
pub type TimesRule = fn(&mut Random, &mut Configured, usize) -> bool;

/// How the layers of a list are drawn.
#[derive(Clone, Copy)]
pub struct LayerRule {
    /// Draws the rule for the delays of a layer's jobs.
    pub delay: fn(&mut Random) -> DelayRule,
    pub times: TimesRule,
}

/// Layers without delays whose deadlines are up to the periods.
pub const UP_TO_PERIODS: LayerRule = LayerRule {
    delay: |_| NO_DELAY,
    times: times_up_to_period,
};

/// Adds the jobs of a layer below all others, with the longest times, and answers the place of the
/// first.
pub fn add_members(
    random: &mut Random,
    list: &mut Configured,
    size: usize,
    drawing: Drawing,
) -> usize {
    let Drawing { range, scale, .. } = drawing;
    let start = list.jobs.len();
    let level = list.settings.last().map_or(0, |setting| setting.level) + 1;
    for _ in 0..size {
        let cost = random.ticks(1, 9) * scale + random.ticks(0, scale - 1);
        list.jobs.push(Job {
            delay: (drawing.delay)(random),
            ..job_of_times(cost, LONGEST_PERIOD, LONGEST_PERIOD)
        });
        list.settings
            .push(member_setting(random, level, size, range));
    }
    start
}

/// A period from a least one on for the job at an index. The jobs of a shared level would often
/// fit alone, one below the other, if they had long periods, so most have the least.
pub fn period_from(random: &mut Random, list: &Configured, index: usize, least: u16) -> u16 {
    let is_shared = list.settings[index].policy == ROUND_ROBIN;
    if is_shared && !random.once_in(3) {
        least
    } else {
        stretched(random, least)
    }
}

/// A deadline at a bound or a little above it.
pub fn deadline_from(random: &mut Random, bound: u16) -> u16 {
    bound.saturating_add(random.choose(&[0, 0, 0, 1, 2, bound / 8]))
}

/// The deadline is the first bound or a little more, and not above the period; false if there is no
/// first bound.
fn times_up_to_period(random: &mut Random, list: &mut Configured, index: usize) -> bool {
    let bound = first_bound(&list.jobs, &list.settings, index);
    if bound == 0 {
        return false;
    }
    let deadline = deadline_from(random, bound).min(LONGEST_PERIOD);
    list.jobs[index].deadline = deadline;
    list.jobs[index].period = period_from(random, list, index, deadline);
    true
}

/// Adds a layer of so many jobs below all others; false if the rule has no times for a job.
pub fn add_layer(
    random: &mut Random,
    list: &mut Configured,
    size: usize,
    drawing: Drawing,
    times: TimesRule,
) -> bool {
    let start = add_members(random, list, size, drawing);
    (start..list.jobs.len()).all(|index| times(random, list, index))
}

/// Adds layers until the list has so many jobs; none if the rule has no times for a job.
fn add_layers(
    random: &mut Random,
    mut list: Configured,
    count: usize,
    range: QuantumRange,
    rule: LayerRule,
) -> Option<Configured> {
    let scale = random.choose(&SCALES);
    while list.jobs.len() < count {
        let left = count - list.jobs.len();
        let size = random.choose(&[1, 1, 2, 2, 3, 4]).min(left);
        let delay = (rule.delay)(random);
        let drawing = Drawing {
            range,
            scale,
            delay,
        };
        if !add_layer(random, &mut list, size, drawing, rule.times) {
            return None;
        }
    }
    Some(list)
}

/// A list with a full configuration that passes. If no attempt gives one, it is a light list with
/// a random configuration.
pub fn built(
    random: &mut Random,
    count: usize,
    range: QuantumRange,
    rule: LayerRule,
) -> Configured {
    for _ in 0..ATTEMPTS {
        if let Some(list) = add_layers(random, Configured::default(), count, range, rule) {
            return mixed(random, list);
        }
    }
    let mut jobs = light(random, count);
    give_ids(random, &mut jobs);
    any_configured(random, jobs, range, true)
}

/// Two layers of one short job each.
fn two_short_jobs(random: &mut Random) -> Configured {
    let mut list = Configured::default();
    for level in 1..=2 {
        let cost = random.ticks(1, 2);
        let period = random.ticks(60, 600) * random.choose(&[1, 1, 100]);
        list.push_alone(job_of_times(cost, period, period), level);
    }
    list
}

/// A list whose lower layers can be taken, while its two top jobs have no slack, so that neither
/// can wait for the other or share a level. If no attempt gives one, it is a built list.
pub fn stuck_on_top(
    random: &mut Random,
    count: usize,
    range: QuantumRange,
    rule: LayerRule,
) -> Vec<Job> {
    for _ in 0..ATTEMPTS {
        let top = two_short_jobs(random);
        if let Some(mut list) = add_layers(random, top, count, range, rule) {
            for job in &mut list.jobs[..2] {
                job.deadline = job.cost;
            }
            return reorder(random, list).jobs;
        }
    }
    built(random, count, range, rule).jobs
}
