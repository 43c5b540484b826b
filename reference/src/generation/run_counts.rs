//! What the first runs of jobs with deadlines above their periods show in accepted cases.

use crate::configuration::{NOT_PLACED, ROUND_ROBIN};
use crate::generation::by_entry::{Answered, Counts};
use crate::generation::long_deadlines::{first_run_by_recurrence, has_long_deadline};
use crate::generation::plans::shares_with_long_deadline;
use crate::jobs::LONGEST_DEADLINE;
use crate::response_time::{End, Run, INSTANCES};

/// The counts of one entry's accepted cases.
#[derive(Clone, Copy, Debug, Default)]
pub struct RunCounts {
    /// Cases with a deadline above its period. Their jobs that are placed and have such a deadline
    /// are those whose first runs are counted below.
    pub cases: usize,
    pub closed_at_first: usize,
    pub closed_at_second: usize,
    pub closed_later: usize,
    pub closed_at_last: usize,
    pub not_closed: usize,
    pub over_deadline_at_first: usize,
    pub over_deadline_later: usize,
    /// Closed runs whose largest response is not at their last instance.
    pub largest_not_last: usize,
    /// Closed runs whose largest response is neither at the first instance nor at the last.
    pub largest_inside: usize,
    /// Runs with a finish above 65,535, which two bytes do not hold.
    pub long_finish: usize,
    /// Runs with a finish above 1,000,000.
    pub longer_finish: usize,
    /// Runs of a job with the longest deadline, 60,000.
    pub longest_deadline: usize,
    /// Runs of a job whose period is its cost.
    pub period_is_cost: usize,
    /// Runs of a job that shares its level.
    pub shared: usize,
    /// Cases with such a job on a shared level.
    pub cases_shared: usize,
}

impl RunCounts {
    /// Counts the run of one job.
    fn count_run(&mut self, run: &Run) {
        let last = run.last_instance;
        *match (run.end, last) {
            (End::Closed, 0) => &mut self.closed_at_first,
            (End::Closed, 1) => &mut self.closed_at_second,
            (End::Closed, _) if last == INSTANCES - 1 => &mut self.closed_at_last,
            (End::Closed, _) => &mut self.closed_later,
            (End::StillRunning, _) => &mut self.not_closed,
            (End::OverDeadline, 0) => &mut self.over_deadline_at_first,
            (End::OverDeadline, _) => &mut self.over_deadline_later,
        } += 1;
        let before_last = run.end == End::Closed && run.largest_instance < last;
        self.largest_not_last += usize::from(before_last);
        self.largest_inside += usize::from(before_last && run.largest_instance > 0);
        self.long_finish += usize::from(run.finish > u64::from(u16::MAX));
        self.longer_finish += usize::from(run.finish > 1_000_000);
    }
}

impl Counts for RunCounts {
    fn count(&mut self, answered: &Answered) {
        let Answered { jobs, settings, .. } = answered;
        self.cases += usize::from(has_long_deadline(jobs));
        self.cases_shared += usize::from(shares_with_long_deadline(jobs, settings));
        for (index, job) in jobs.iter().enumerate() {
            if settings[index].policy != NOT_PLACED && job.deadline > job.period {
                self.count_run(&first_run_by_recurrence(jobs, settings, index));
                self.longest_deadline += usize::from(job.deadline == LONGEST_DEADLINE);
                self.period_is_cost += usize::from(job.period == job.cost);
                self.shared += usize::from(settings[index].policy == ROUND_ROBIN);
            }
        }
    }

    fn lines(&self) -> Vec<(&'static str, usize)> {
        vec![
            ("cases with a D above T", self.cases),
            ("with such a job on a shared level", self.cases_shared),
            ("runs closed at instance 0", self.closed_at_first),
            ("runs closed at instance 1", self.closed_at_second),
            ("runs closed at instance 2 to 62", self.closed_later),
            ("runs closed at instance 63", self.closed_at_last),
            ("runs past 64 T", self.not_closed),
            ("runs over D at instance 0", self.over_deadline_at_first),
            ("runs over D at a later one", self.over_deadline_later),
            ("largest response not the last", self.largest_not_last),
            ("and not the first", self.largest_inside),
            ("a finish above 65,535", self.long_finish),
            ("a finish above 1,000,000", self.longer_finish),
            ("runs with a D of 60,000", self.longest_deadline),
            ("runs with T equal to C", self.period_is_cost),
            ("runs on a shared level", self.shared),
        ]
    }
}
