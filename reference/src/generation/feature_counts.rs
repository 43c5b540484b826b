//! What the breakdowns of accepted cases show.

use std::fmt;

use crate::generation::by_entry::Answered;
use crate::generation::features::FEATURES;

/// The counts of the accepted cases that break bounds down.
#[derive(Clone, Copy, Debug, Default)]
pub struct FeatureCounts {
    /// Jobs of accepted cases.
    pub jobs: usize,
    /// By the feature's number, jobs that show it.
    pub features: [usize; FEATURES.len()],
    /// Likewise, cases with such a job.
    pub cases: [usize; FEATURES.len()],
}

/// The names of the features, by their numbers.
const NAMES: [&str; FEATURES.len()] = [
    "not placed",
    "placed, bound 0",
    "policy 1, past instance 0",
    "policy 2, by the first, past instance 0",
    "by the second bound",
    "and past instance 0",
    "by the second, with delayed neighbours",
    "and past instance 0",
    "by the second, with work from above",
    "both bounds the same",
    "and other amounts in the second",
    "reached again later",
    "reached at instance 8 or later",
    "below a job not placed",
    "with a J of 255",
    "an amount above 65,535",
];

impl FeatureCounts {
    /// Counts an accepted case.
    pub fn count(&mut self, answered: &Answered) {
        let Answered { jobs, settings, .. } = answered;
        self.jobs += jobs.len();
        for feature in FEATURES {
            let is_shown = |index: &usize| feature.is_shown_by(jobs, settings, *index);
            let shown = (0..jobs.len()).filter(is_shown).count();
            self.features[feature as usize] += shown;
            self.cases[feature as usize] += usize::from(shown > 0);
        }
    }
}

impl fmt::Display for FeatureCounts {
    fn fmt(&self, formatter: &mut fmt::Formatter<'_>) -> fmt::Result {
        let title = "bounds broken down";
        writeln!(formatter, "{title:<40}{:>10}{:>10}", "jobs", "cases")?;
        for (name, counts) in NAMES.iter().zip(self.features.iter().zip(&self.cases)) {
            writeln!(formatter, "{name:<40}{:>10}{:>10}", counts.0, counts.1)?;
        }
        Ok(())
    }
}
