//! Lists with configurations: how a drawn one is mixed, and configurations put on a list at random.

use crate::configuration::{not_placed, QuantumRange, Setting, FIFO, NOT_PLACED, ROUND_ROBIN};
use crate::generation::lists::give_ids;
use crate::generation::random::Random;
use crate::jobs::Job;
use crate::marker::is_full;

/// How often a list is drawn until it is as wanted.
const DRAWS: usize = 320;

/// After so many draws the list drawn has one job less.
const DRAWS_OF_ONE_LENGTH: usize = 40;

/// Jobs, and a configuration of theirs.
#[derive(Default)]
pub struct Configured {
    pub jobs: Vec<Job>,
    pub settings: Vec<Setting>,
}

impl Configured {
    /// One job more, alone on its level.
    pub fn push_alone(&mut self, job: Job, level: u8) {
        self.jobs.push(job);
        self.settings.push(Setting {
            id: 0,
            level,
            policy: FIFO,
            quantum: 0,
        });
    }
}

/// A way to draw a list with a full configuration, from the turn, the number of jobs and the range.
pub type DrawList = fn(&mut Random, usize, usize, QuantumRange) -> Configured;

/// The setting of a member of a layer of so many jobs.
pub fn member_setting(random: &mut Random, level: u8, size: usize, range: QuantumRange) -> Setting {
    let (policy, quantum) = if size == 1 {
        (FIFO, 0)
    } else {
        (ROUND_ROBIN, random.byte(range.lowest, range.highest))
    };
    Setting {
        id: 0,
        level,
        policy,
        quantum,
    }
}

/// Levels that rise from 1 to n with the layers but may leave some out.
fn skip_levels(random: &mut Random, settings: &mut [Setting]) {
    let layers = settings.iter().map(|setting| setting.level).max();
    let levels = random.distinct(usize::from(layers.unwrap_or(0)), settings.len());
    for setting in settings {
        if setting.level != 0 {
            setting.level = levels[usize::from(setting.level) - 1] as u8 + 1;
        }
    }
}

/// Puts jobs and settings into one new order and gives them ids.
pub fn reorder(random: &mut Random, list: Configured) -> Configured {
    let mut pairs: Vec<(Job, Setting)> = list.jobs.into_iter().zip(list.settings).collect();
    random.shuffle(&mut pairs);
    let (mut jobs, mut settings): (Vec<Job>, Vec<Setting>) = pairs.into_iter().unzip();
    give_ids(random, &mut jobs);
    for (setting, job) in settings.iter_mut().zip(&jobs) {
        setting.id = job.id;
    }
    Configured { jobs, settings }
}

/// The list with levels left out, in a new order and with ids.
pub fn mixed(random: &mut Random, mut list: Configured) -> Configured {
    skip_levels(random, &mut list.settings);
    reorder(random, list)
}

/// A list of two jobs or more as it is drawn, then mixed; none if no draw gives one. Long lists are
/// seldom drawn as some are wanted, so the length falls with the attempts.
pub fn first_drawn(
    random: &mut Random,
    count: usize,
    draw: impl Fn(&mut Random, usize) -> Option<Configured>,
) -> Option<Configured> {
    for attempt in 0..DRAWS {
        let count = count.saturating_sub(attempt / DRAWS_OF_ONE_LENGTH).max(2);
        if let Some(list) = draw(random, count) {
            return Some(mixed(random, list));
        }
    }
    None
}

/// Any configuration of a list, full or with at least one job not placed.
fn random_settings(
    random: &mut Random,
    jobs: &[Job],
    range: QuantumRange,
    full: bool,
) -> Vec<Setting> {
    let count = jobs.len();
    let levels = random.between(1, count);
    let left_out = random.below(count);
    let chosen: Vec<u8> = (0..count)
        .map(|index| {
            if !full && (index == left_out || random.once_in(3)) {
                0
            } else {
                random.between(1, levels) as u8
            }
        })
        .collect();
    let mut settings = Vec::new();
    for (job, level) in jobs.iter().zip(&chosen) {
        if *level == 0 {
            settings.push(not_placed(job));
            continue;
        }
        let size = chosen.iter().filter(|other| *other == level).count();
        let mut setting = member_setting(random, *level, size, range);
        setting.id = job.id;
        settings.push(setting);
    }
    skip_levels(random, &mut settings);
    settings
}

/// Jobs with any configuration of theirs.
pub fn any_configured(
    random: &mut Random,
    jobs: Vec<Job>,
    range: QuantumRange,
    full: bool,
) -> Configured {
    let settings = random_settings(random, &jobs, range, full);
    Configured { jobs, settings }
}

/// Gives a list a full configuration, or one with a job not placed, unless it has such a one.
pub fn make_full(random: &mut Random, list: &mut Configured, range: QuantumRange, full: bool) {
    if full && !is_full(&list.settings) {
        list.settings = random_settings(random, &list.jobs, range, true);
    }
    if !full && is_full(&list.settings) {
        leave_layer_out(random, &mut list.settings);
    }
}

/// Takes one whole layer of a configuration out, so that its jobs are not placed.
pub fn leave_layer_out(random: &mut Random, settings: &mut [Setting]) {
    let levels: Vec<u8> = settings.iter().map(|setting| setting.level).collect();
    let level = random.choose(&levels);
    for setting in settings {
        if setting.level == level {
            setting.level = 0;
            setting.policy = NOT_PLACED;
            setting.quantum = 0;
        }
    }
}
