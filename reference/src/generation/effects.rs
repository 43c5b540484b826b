//! What delays do to the bound of one job: the bound is compared with what it would be without some
//! of the delays.

use crate::configuration::{Setting, FIFO, NOT_PLACED, ROUND_ROBIN};
use crate::generation::long_deadlines::{
    first_run_by_recurrence, second_run_by_recurrence, RunOfJob,
};
use crate::generation::situations::{two_bounds, Situation};
use crate::jobs::Job;
use crate::response_time::{lesser_bound, End, INSTANCES};

/// The effects that are looked for. A job may show several.
#[derive(Clone, Copy, Debug, PartialEq, Eq)]
pub enum Effect {
    /// A job alone on its level has a bound that is larger by the delays of jobs above.
    RaisedByAbove,
    /// The bound is 0, and not without the delays of the other jobs.
    OverByOthers,
    /// The bound is 0, and not without the job's own delay.
    OverByOwn,
    /// Likewise, and the own delay is as long as the deadline or longer.
    DelayFromDeadlineOn,
    /// The bound is not 0, and the own delay is as long as the period or longer.
    DelayFromPeriodOn,
    /// The bound is not 0, and its run closes at a later instance than without the own delay.
    KeptOpen,
    /// The bound is not 0, and its run reaches it at a later instance than without the delays of
    /// the other jobs.
    ReachedLater,
    /// The run closes at instance 63, and before it without the own delay.
    ClosesAtLast,
    /// The first run goes past 64·T, and closes without the own delay.
    PastLast,
    /// The second bound decides, and it is larger by the delays of neighbours.
    SecondRaised,
    /// The first bound decides, and without the delays of neighbours the second would.
    FirstInstead,
}

/// All effects, each at the place of its number.
pub const EFFECTS: [Effect; 11] = [
    Effect::RaisedByAbove,
    Effect::OverByOthers,
    Effect::OverByOwn,
    Effect::DelayFromDeadlineOn,
    Effect::DelayFromPeriodOn,
    Effect::KeptOpen,
    Effect::ReachedLater,
    Effect::ClosesAtLast,
    Effect::PastLast,
    Effect::SecondRaised,
    Effect::FirstInstead,
];

/// The list without the delays of the jobs that are chosen by their indexes.
fn without_delays_of(jobs: &[Job], is_chosen: impl Fn(usize) -> bool) -> Vec<Job> {
    let mut changed = jobs.to_vec();
    for (index, job) in changed.iter_mut().enumerate() {
        if is_chosen(index) {
            job.delay = 0;
        }
    }
    changed
}

/// The list without any delay.
pub fn without_delays(jobs: &[Job]) -> Vec<Job> {
    without_delays_of(jobs, |_| true)
}

/// The list without one job's delay.
pub fn without_own_delay(jobs: &[Job], index: usize) -> Vec<Job> {
    without_delays_of(jobs, |other| other == index)
}

/// The list without the delays of all jobs but one.
pub fn without_other_delays(jobs: &[Job], index: usize) -> Vec<Job> {
    without_delays_of(jobs, |other| other != index)
}

/// The list without the delays of a job's neighbours.
pub fn without_neighbour_delays(jobs: &[Job], settings: &[Setting], index: usize) -> Vec<Job> {
    let level = settings[index].level;
    without_delays_of(jobs, |other| {
        other != index && settings[other].level == level
    })
}

/// The bound of a job, with finishes by the recurrence.
pub fn bound_by_recurrence(jobs: &[Job], settings: &[Setting], index: usize) -> u16 {
    match settings[index].policy {
        NOT_PLACED => 0,
        FIFO => first_run_by_recurrence(jobs, settings, index).bound(),
        _ => {
            let [first, second] = two_bounds(jobs, settings, index);
            lesser_bound(first, second)
        }
    }
}

/// Whether a policy 2 job's bound is its second one and not its first.
fn second_decides(jobs: &[Job], settings: &[Setting], index: usize) -> bool {
    let situation = Situation::of_bounds(two_bounds(jobs, settings, index));
    let is_second = matches!(situation, Situation::SecondLess | Situation::SecondAlone);
    settings[index].policy == ROUND_ROBIN && is_second
}

/// The run that settles a placed job's bound: the first if both do.
fn deciding_run(jobs: &[Job], settings: &[Setting], index: usize) -> RunOfJob {
    if second_decides(jobs, settings, index) {
        second_run_by_recurrence
    } else {
        first_run_by_recurrence
    }
}

impl Effect {
    /// Whether a job's bound shows this effect.
    pub fn is_shown_by(self, jobs: &[Job], settings: &[Setting], index: usize) -> bool {
        let policy = settings[index].policy;
        if policy == NOT_PLACED {
            return false;
        }
        let bound = |jobs: &[Job]| bound_by_recurrence(jobs, settings, index);
        let (job, found) = (&jobs[index], bound(jobs));
        let is_over = |without: Vec<Job>| found == 0 && bound(&without) != 0;
        match self {
            Effect::RaisedByAbove => {
                let without = bound(&without_other_delays(jobs, index));
                policy == FIFO && without != 0 && without < found
            }
            Effect::OverByOthers => is_over(without_other_delays(jobs, index)),
            Effect::OverByOwn => is_over(without_own_delay(jobs, index)),
            Effect::DelayFromDeadlineOn => {
                u16::from(job.delay) >= job.deadline && is_over(without_own_delay(jobs, index))
            }
            Effect::DelayFromPeriodOn => u16::from(job.delay) >= job.period && found != 0,
            Effect::SecondRaised | Effect::FirstInstead => {
                found != 0 && policy == ROUND_ROBIN && self.concerns_bounds(jobs, settings, index)
            }
            _ => self.concerns_run(jobs, settings, index),
        }
    }

    /// Whether the two bounds of a policy 2 job show this effect.
    fn concerns_bounds(self, jobs: &[Job], settings: &[Setting], index: usize) -> bool {
        let without = without_neighbour_delays(jobs, settings, index);
        let [_, second] = two_bounds(jobs, settings, index);
        let [_, second_without] = two_bounds(&without, settings, index);
        let decides = second_decides(jobs, settings, index);
        match self {
            Effect::SecondRaised => decides && second_without < second,
            _ => !decides && second_decides(&without, settings, index),
        }
    }

    /// Whether the run that settles a placed job's bound shows this effect.
    fn concerns_run(self, jobs: &[Job], settings: &[Setting], index: usize) -> bool {
        let run_of_job = deciding_run(jobs, settings, index);
        let run = run_of_job(jobs, settings, index);
        let changed = match self {
            Effect::ReachedLater => without_other_delays(jobs, index),
            _ => without_own_delay(jobs, index),
        };
        let without = run_of_job(&changed, settings, index);
        let is_closed = run.end == End::Closed;
        let closes_later = is_closed && run.last_instance > without.last_instance;
        without.end == End::Closed
            && match self {
                Effect::KeptOpen => closes_later,
                Effect::ReachedLater => {
                    is_closed && run.largest_instance > without.largest_instance
                }
                Effect::ClosesAtLast => closes_later && run.last_instance == INSTANCES - 1,
                _ => run.end == End::StillRunning,
            }
    }

    /// Whether some job of a list shows this effect.
    pub fn is_shown_by_some(self, jobs: &[Job], settings: &[Setting]) -> bool {
        (0..jobs.len()).any(|index| self.is_shown_by(jobs, settings, index))
    }
}
