//! Lists and ranges for the planner, drawn until the planner's outcome is the one wanted.

use crate::configuration::{QuantumRange, Setting, NOT_PLACED, ROUND_ROBIN};
use crate::generation::configured::Configured;
use crate::generation::layers::{built, stuck_on_top, UP_TO_PERIODS};
use crate::generation::lists::{
    equal, give_ids, heavy, light, near_full, range, small, stuck, worked,
};
use crate::generation::long_deadlines::{has_long_deadline, with_long_deadlines, ABOVE_PERIODS};
use crate::generation::random::Random;
use crate::generation::runs::list_with_run;
use crate::jobs::Job;
use crate::planner::{plan_jobs_within, Plan, Rules, RULES};
use crate::sets::{by_number, SetOrder};

/// The most lists of quanta that a search may try where a list is drawn.
const MOST_LISTS: u64 = 600_000;

/// The order of sets in the plans by whose outcomes lists are drawn. It is 01's, whichever order
/// answers go by: which lists are drawn does not depend on the order of the sets.
pub const DRAWING_ORDER: SetOrder = by_number;

/// How often a list is drawn until its outcome is the one wanted.
const ATTEMPTS: usize = 48;

/// After so many draws the list drawn has one job less, as short lists have more of the outcomes.
const ATTEMPTS_OF_ONE_LENGTH: usize = 8;

/// A list with a run of a wanted kind has one of so many turns.
const TURNS_OF_RUNS: usize = 1_000;

/// What the planner makes of a list.
#[derive(Clone, Copy, Debug, PartialEq, Eq)]
pub enum Outcome {
    /// Each job is placed on a level of its own.
    PlacedAlone,
    /// Each job is placed, and the largest layer has two jobs.
    PlacedInPairs,
    /// Each job is placed, and the largest layer has three jobs or more.
    PlacedInLargerLayers,
    /// Some jobs are placed, each on a level of its own, and some are left.
    StoppedShort,
    /// Some jobs are placed, at least two of them on one level, and some are left.
    StoppedShortSharing,
    /// No job is placed.
    NothingPlaced,
}

/// The outcomes that cases of the planner are drawn for in turn; none is any outcome.
const WANTED: [Option<Outcome>; 9] = [
    None,
    Some(Outcome::PlacedInPairs),
    Some(Outcome::StoppedShort),
    Some(Outcome::PlacedInLargerLayers),
    None,
    Some(Outcome::StoppedShortSharing),
    Some(Outcome::PlacedInPairs),
    Some(Outcome::NothingPlaced),
    Some(Outcome::PlacedAlone),
];

/// The number of jobs in the largest layer of a configuration.
pub fn largest_layer(settings: &[Setting]) -> usize {
    let placed = || settings.iter().filter(|setting| setting.level != 0);
    placed()
        .map(|one| placed().filter(|other| other.level == one.level).count())
        .max()
        .unwrap_or(0)
}

/// The outcome that a configuration returned by the planner shows.
pub fn outcome(settings: &[Setting]) -> Outcome {
    let is_left = |setting: &Setting| setting.policy == NOT_PLACED;
    if settings.iter().all(is_left) {
        return Outcome::NothingPlaced;
    }
    match (settings.iter().any(is_left), largest_layer(settings)) {
        (true, 1) => Outcome::StoppedShort,
        (true, _) => Outcome::StoppedShortSharing,
        (false, 1) => Outcome::PlacedAlone,
        (false, 2) => Outcome::PlacedInPairs,
        (false, _) => Outcome::PlacedInLargerLayers,
    }
}

/// A list of one kind. Light lists are placed each job alone and heavy ones are mostly not placed,
/// so they are drawn only where that is wanted.
fn list(
    random: &mut Random,
    count: usize,
    range: QuantumRange,
    wanted: Option<Outcome>,
) -> Vec<Job> {
    let mut jobs = match (random.below(14), wanted) {
        (0, None | Some(Outcome::PlacedAlone)) => light(random, count),
        (1 | 2, None | Some(Outcome::NothingPlaced)) => heavy(random, count),
        (3 | 4, _) => near_full(random, count),
        (0..=2, Some(Outcome::StoppedShort)) | (_, Some(Outcome::StoppedShortSharing)) => {
            return stuck_on_top(random, count, range, UP_TO_PERIODS)
        }
        (5, _) => stuck(random, count),
        (6, _) => equal(random, count),
        (7, _) => small(random, count),
        (8 | 9, _) => worked(random, count),
        _ => return built(random, count, range, UP_TO_PERIODS).jobs,
    };
    give_ids(random, &mut jobs);
    jobs
}

/// Whether the deadlines of a list are up to its periods, or some are above.
#[derive(Clone, Copy, Debug, PartialEq, Eq)]
pub enum Deadlines {
    UpToPeriods,
    AbovePeriods,
}

impl Deadlines {
    /// A list with such deadlines and without delays.
    pub fn list(
        self,
        random: &mut Random,
        count: usize,
        range: QuantumRange,
        wanted: Option<Outcome>,
    ) -> Vec<Job> {
        match self {
            Deadlines::UpToPeriods => list(random, count, range, wanted),
            Deadlines::AbovePeriods => list_with_long_deadlines(random, count, range, wanted),
        }
    }

    /// Whether a list has such deadlines. If its plan has a shared level, a job with a deadline
    /// above its period is to be on one.
    fn are_shown_by(self, jobs: &[Job], plan: &Plan) -> bool {
        let shares =
            largest_layer(&plan.settings) < 2 || shares_with_long_deadline(jobs, &plan.settings);
        self == Deadlines::UpToPeriods || has_long_deadline(jobs) && shares
    }
}

/// A list of one kind, most with a deadline above its period.
fn list_with_long_deadlines(
    random: &mut Random,
    count: usize,
    range: QuantumRange,
    wanted: Option<Outcome>,
) -> Vec<Job> {
    let mut jobs = match (random.below(12), wanted) {
        (0..=2, Some(Outcome::StoppedShort)) | (_, Some(Outcome::StoppedShortSharing)) => {
            return stuck_on_top(random, count, range, ABOVE_PERIODS)
        }
        (0..=8, None | Some(Outcome::PlacedAlone)) | (0 | 1, Some(Outcome::NothingPlaced)) => {
            let turn = random.below(TURNS_OF_RUNS);
            return list_with_run(random, turn, count, range).jobs;
        }
        (2, _) => light(random, count),
        (3, _) => heavy(random, count),
        (4 | 7, _) => near_full(random, count),
        (5 | 8, _) => small(random, count),
        (6 | 9, _) => worked(random, count),
        (10, _) => equal(random, count),
        _ => return built(random, count, range, ABOVE_PERIODS).jobs,
    };
    jobs = with_long_deadlines(random, jobs);
    give_ids(random, &mut jobs);
    jobs
}

/// Whether some job that shares its level has a deadline above its period.
pub fn shares_with_long_deadline(jobs: &[Job], settings: &[Setting]) -> bool {
    let mut pairs = jobs.iter().zip(settings);
    pairs.any(|(job, setting)| setting.policy == ROUND_ROBIN && job.deadline > job.period)
}

/// The plan of a list in a range with the sets in an order, if the search tries no more lists of
/// quanta than it may.
pub fn affordable_plan(jobs: &[Job], range: QuantumRange, order: SetOrder) -> Option<Plan> {
    let rules = Rules { order, ..RULES };
    plan_jobs_within(jobs, range, rules, MOST_LISTS).ok()
}

/// A range that is as wide as the one given, or as narrow as the list's search needs, with the
/// plan in it.
pub fn affordable(jobs: &[Job], mut range: QuantumRange) -> (QuantumRange, Plan) {
    loop {
        match affordable_plan(jobs, range, DRAWING_ORDER) {
            Some(plan) => return (range, plan),
            None => range.highest = range.lowest + (range.highest - range.lowest) / 2,
        }
    }
}

/// A list for the planner, and the range in which it is planned.
pub type ListAndRange = (Vec<Job>, QuantumRange);

/// The fewest jobs that can have an outcome.
fn least_jobs(wanted: Option<Outcome>) -> usize {
    match wanted {
        None | Some(Outcome::PlacedAlone) => 1,
        Some(Outcome::PlacedInLargerLayers) => 3,
        Some(Outcome::StoppedShortSharing) => 4,
        Some(_) => 2,
    }
}

/// A list and a range for the planner. A given range is kept; the outcome wanted changes from case
/// to case. Lists are drawn until one has that outcome and is shown to be of its kind.
pub fn list_with_outcome(
    random: &mut Random,
    ordinal: usize,
    count: usize,
    fixed: Option<QuantumRange>,
    draw: impl Fn(&mut Random, usize, QuantumRange, Option<Outcome>) -> Vec<Job>,
    is_shown: impl Fn(&[Job], QuantumRange, &Plan) -> bool,
) -> ListAndRange {
    let wanted = WANTED[ordinal % WANTED.len()];
    let mut attempts = 0;
    loop {
        let shorter = count.saturating_sub(attempts / ATTEMPTS_OF_ONE_LENGTH);
        let count = shorter.max(least_jobs(wanted));
        attempts += 1;
        let drawn = fixed.unwrap_or_else(|| range(random));
        let jobs = draw(random, count, drawn, wanted);
        // A list built for a wide range often stops short in a narrower one.
        let narrowed = QuantumRange {
            lowest: drawn.lowest,
            highest: random.byte(drawn.lowest, drawn.highest),
        };
        let tried = if fixed.is_none() && random.once_in(3) {
            narrowed
        } else {
            drawn
        };
        let (range, plan) = affordable(&jobs, tried);
        let has_outcome = wanted.is_none_or(|wanted| wanted == outcome(&plan.settings));
        if has_outcome && is_shown(&jobs, range, &plan) || attempts == ATTEMPTS {
            return (jobs, fixed.unwrap_or(range));
        }
    }
}

/// A list without delays and a range for the planner, the list having deadlines of one kind.
pub fn planner_list(
    random: &mut Random,
    ordinal: usize,
    count: usize,
    fixed: Option<QuantumRange>,
    deadlines: Deadlines,
) -> ListAndRange {
    list_with_outcome(
        random,
        ordinal,
        count,
        fixed,
        |random, count, range, wanted| deadlines.list(random, count, range, wanted),
        |jobs, _, plan| deadlines.are_shown_by(jobs, plan),
    )
}

/// A list with the planner's configuration of it, in the given range or a part of it.
pub fn any_plan(
    random: &mut Random,
    count: usize,
    range: QuantumRange,
    deadlines: Deadlines,
) -> Configured {
    let jobs = deadlines.list(random, count, range, None);
    let (_, plan) = affordable(&jobs, range);
    Configured {
        jobs,
        settings: plan.settings,
    }
}
