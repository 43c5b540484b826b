//! What the breakdown of one job's bound shows.

use crate::breakdown::{breakdown_of_job, parts_of_run, Breakdown, FIRST, SECOND};
use crate::configuration::{Setting, FIFO, NOT_PLACED, ROUND_ROBIN};
use crate::generation::effects::without_neighbour_delays;
use crate::generation::long_deadlines::finish_by_recurrence;
use crate::generation::situations::two_runs;
use crate::jobs::Job;
use crate::response_time::{jobs_above, layer_demand, neighbours, run_of_job, total_interference};

/// The features that are looked for. A job may show several. All but the first two are those of a
/// bound that is not 0.
#[derive(Clone, Copy, Debug, PartialEq, Eq)]
pub enum Feature {
    /// The job is not placed.
    NotPlaced,
    /// The job is placed, and its bound is 0.
    NoBound,
    /// A policy 1 job reaches its bound past instance 0.
    AloneLater,
    /// A policy 2 job reaches its bound past instance 0, and the first bound decides.
    FirstLater,
    /// The second bound decides.
    Second,
    /// The second bound decides, and it is reached past instance 0.
    SecondLater,
    /// The second bound decides, and the share is larger by the delays of the neighbours.
    SecondDelayed,
    /// Likewise, past instance 0.
    SecondDelayedLater,
    /// The second bound decides, and jobs above add work besides the neighbours.
    SecondBelow,
    /// Both bounds of a policy 2 job are the same.
    Equal,
    /// Likewise, and the amounts of the second are other ones or at another instance.
    EqualApart,
    /// A later instance has the bound as its response too.
    ReachedAgain,
    /// The bound is reached at instance 8 or later. It is not reached at 63: a run that closes past
    /// instance 0 closes with a response up to T, and the instances before have larger ones.
    ReachedLate,
    /// A job that is not placed adds work.
    BelowNotPlaced,
    /// J is 255.
    LongestDelay,
    /// An amount is above 65,535, which two bytes do not hold.
    LongAmount,
}

/// All features, each at the place of its number.
pub const FEATURES: [Feature; 16] = [
    Feature::NotPlaced,
    Feature::NoBound,
    Feature::AloneLater,
    Feature::FirstLater,
    Feature::Second,
    Feature::SecondLater,
    Feature::SecondDelayed,
    Feature::SecondDelayedLater,
    Feature::SecondBelow,
    Feature::Equal,
    Feature::EqualApart,
    Feature::ReachedAgain,
    Feature::ReachedLate,
    Feature::BelowNotPlaced,
    Feature::LongestDelay,
    Feature::LongAmount,
];

/// The responses of the run that decides a job's bound, from instance 0 on.
fn responses(jobs: &[Job], settings: &[Setting], index: usize, decided: u8) -> Vec<u64> {
    let job = &jobs[index];
    let mut above = jobs_above(jobs, settings, index);
    if decided == SECOND {
        above.extend(neighbours(jobs, settings, index));
    }
    let demand = |own_work| match decided {
        FIRST => layer_demand(settings, index, own_work),
        _ => own_work,
    };
    let mut finishes = Vec::new();
    run_of_job(job, demand, |demand, earliest, latest| {
        let finish = finish_by_recurrence(demand, &above, earliest, latest);
        finishes.extend(finish);
        finish
    });
    let responses = (0..).zip(finishes).map(|(instance, finish)| {
        let release = instance * u64::from(job.period);
        finish + u64::from(job.delay) - release
    });
    responses.collect()
}

/// A job in a list with a configuration, and the breakdown of its bound, which is not 0.
#[derive(Clone, Copy)]
pub struct Broken<'a> {
    pub jobs: &'a [Job],
    pub settings: &'a [Setting],
    pub index: usize,
    pub parts: Breakdown,
}

impl Broken<'_> {
    fn policy(&self) -> u8 {
        self.settings[self.index].policy
    }

    /// The finish of the instance that reaches the bound.
    pub fn finish(&self) -> u64 {
        let [own_work, layer_share, from_above, ..] = self.parts.amounts();
        u64::from(own_work + layer_share + from_above)
    }

    /// The responses of the run that decides the bound, from instance 0 on.
    pub fn responses(&self) -> Vec<u64> {
        let Broken { jobs, settings, .. } = self;
        responses(jobs, settings, self.index, self.parts.decided)
    }

    /// Whether the neighbours would add less without their delays.
    fn has_delayed_share(&self) -> bool {
        let (settings, index) = (self.settings, self.index);
        let without = without_neighbour_delays(self.jobs, settings, index);
        let without = neighbours(&without, settings, index);
        let without = total_interference(&without, self.finish());
        self.parts.decided == SECOND && without < u64::from(self.parts.layer_share)
    }

    /// The breakdown of the second bound if it is the same as the first and not 0.
    pub fn equal_second(&self) -> Option<Breakdown> {
        let (jobs, settings, index) = (self.jobs, self.settings, self.index);
        if self.policy() != ROUND_ROBIN {
            return None;
        }
        let [first, second] = two_runs(jobs, settings, index);
        let is_equal = first.bound() == second.bound();
        is_equal.then(|| parts_of_run(jobs, settings, index, (SECOND, second)))
    }

    /// How many instances have the bound as their response.
    fn times_reached(&self) -> usize {
        let bound = u64::from(self.parts.bound());
        let responses = self.responses();
        let reached = responses.iter().filter(|response| **response == bound);
        reached.count()
    }

    /// Whether a job that is not placed adds work.
    fn is_below_not_placed(&self) -> bool {
        let mut settings = self.settings.iter();
        settings.any(|setting| setting.policy == NOT_PLACED)
    }

    /// Whether a bound that is not 0 shows a feature.
    fn shows(&self, feature: Feature) -> bool {
        let (parts, policy) = (&self.parts, self.policy());
        let (is_second, is_later) = (parts.decided == SECOND, parts.instance > 0);
        match feature {
            Feature::NotPlaced | Feature::NoBound => false,
            Feature::AloneLater => policy == FIFO && is_later,
            Feature::FirstLater => policy == ROUND_ROBIN && !is_second && is_later,
            Feature::Second => is_second,
            Feature::SecondLater => is_second && is_later,
            Feature::SecondDelayed => self.has_delayed_share(),
            Feature::SecondDelayedLater => is_later && self.has_delayed_share(),
            Feature::SecondBelow => is_second && parts.from_above > 0,
            Feature::Equal => self.equal_second().is_some(),
            Feature::EqualApart => {
                let second = self.equal_second();
                second.is_some_and(|second| second.amounts() != parts.amounts())
            }
            Feature::ReachedAgain => self.times_reached() > 1,
            Feature::ReachedLate => parts.instance >= 8,
            Feature::BelowNotPlaced => self.is_below_not_placed(),
            Feature::LongestDelay => parts.delay == u32::from(u8::MAX),
            Feature::LongAmount => parts.amounts().iter().any(|amount| *amount > 65_535),
        }
    }
}

impl Feature {
    /// Whether the breakdown of a job's bound shows this feature.
    pub fn is_shown_by(self, jobs: &[Job], settings: &[Setting], index: usize) -> bool {
        let parts = breakdown_of_job(jobs, settings, index, finish_by_recurrence);
        let is_placed = settings[index].policy != NOT_PLACED;
        if parts == Breakdown::default() {
            let expected = match is_placed {
                true => Feature::NoBound,
                false => Feature::NotPlaced,
            };
            return self == expected;
        }
        let broken = Broken {
            jobs,
            settings,
            index,
            parts,
        };
        broken.shows(self)
    }

    /// Whether some job of a list shows this feature.
    pub fn is_shown_by_some(self, jobs: &[Job], settings: &[Setting]) -> bool {
        (0..jobs.len()).any(|index| self.is_shown_by(jobs, settings, index))
    }
}
