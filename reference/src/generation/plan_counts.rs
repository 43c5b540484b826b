//! What a planner makes of the lists of its accepted cases.

use crate::generation::by_entry::Answered;
use crate::generation::plans::{largest_layer, outcome, Outcome};
use crate::jobs::{LONGEST_PERIOD, MOST_JOBS};

/// The groups of range widths, each up to and with its number.
const WIDTHS: [usize; 5] = [1, 4, 16, 63, 64];

/// The counts of a planner's accepted cases.
#[derive(Clone, Debug, Default)]
pub struct PlanCounts {
    pub placed_alone: usize,
    pub placed_in_pairs: usize,
    pub placed_in_larger_layers: usize,
    pub stopped_short: usize,
    pub stopped_short_sharing: usize,
    pub nothing_placed: usize,
    /// Cases with a level of two jobs or more, whether or not all jobs are placed.
    pub with_shared_level: usize,
    /// Cases with a level of three jobs or more, whether or not all jobs are placed.
    pub with_level_of_three: usize,
    /// Cases with a shared level in a range of more than 16 quanta.
    pub with_shared_level_in_wide_range: usize,
    pub with_longest_period: usize,
    /// By the number of jobs, from 1 on.
    pub by_jobs: [usize; MOST_JOBS],
    /// By the groups of range widths.
    pub by_width: [usize; WIDTHS.len()],
}

impl PlanCounts {
    /// Counts an accepted case.
    pub fn count(&mut self, answered: &Answered) {
        let Answered { jobs, settings, .. } = answered;
        *match outcome(settings) {
            Outcome::PlacedAlone => &mut self.placed_alone,
            Outcome::PlacedInPairs => &mut self.placed_in_pairs,
            Outcome::PlacedInLargerLayers => &mut self.placed_in_larger_layers,
            Outcome::StoppedShort => &mut self.stopped_short,
            Outcome::StoppedShortSharing => &mut self.stopped_short_sharing,
            Outcome::NothingPlaced => &mut self.nothing_placed,
        } += 1;
        let largest = largest_layer(settings);
        self.with_shared_level += usize::from(largest >= 2);
        self.with_level_of_three += usize::from(largest >= 3);
        let width = usize::from(answered.range.highest - answered.range.lowest) + 1;
        self.with_shared_level_in_wide_range += usize::from(largest >= 2 && width > 16);
        let is_longest = jobs.iter().any(|job| job.period == LONGEST_PERIOD);
        self.with_longest_period += usize::from(is_longest);
        self.by_jobs[jobs.len() - 1] += 1;
        let group = WIDTHS.iter().position(|most| width <= *most);
        self.by_width[group.expect("a range has at most 64 quanta")] += 1;
    }

    /// The counts with their names.
    pub fn lines(&self) -> Vec<(String, usize)> {
        let (pairs, larger) = (self.placed_in_pairs, self.placed_in_larger_layers);
        let (short, short_sharing) = (self.stopped_short, self.stopped_short_sharing);
        let wide = self.with_shared_level_in_wide_range;
        let named = [
            ("all placed, each alone", self.placed_alone),
            ("all placed, levels of up to 2", pairs),
            ("all placed, a level of 3 or more", larger),
            ("stopped short, some placed, each alone", short),
            ("stopped short, some placed, a shared level", short_sharing),
            ("nothing placed", self.nothing_placed),
            ("with a shared level", self.with_shared_level),
            ("with a shared level, range above 16 wide", wide),
            ("with a level of 3 or more", self.with_level_of_three),
            ("with a T of 60,000", self.with_longest_period),
        ];
        let named = named.map(|(name, count)| (name.to_string(), count));
        let by_jobs = (1..).zip(self.by_jobs);
        let by_jobs = by_jobs.map(|(jobs, count)| (format!("number of jobs {jobs}"), count));
        let least = [0].into_iter().chain(WIDTHS).map(|below| below + 1);
        let widths = least.zip(WIDTHS).zip(self.by_width);
        let by_width =
            widths.map(|((least, most), count)| (format!("range width {least} to {most}"), count));
        named.into_iter().chain(by_jobs).chain(by_width).collect()
    }
}
