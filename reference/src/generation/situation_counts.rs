//! How the two bounds of policy 2 jobs stand to each other in accepted cases.

use crate::configuration::{Setting, ROUND_ROBIN};
use crate::generation::by_entry::{Answered, Counts};
use crate::generation::situations::{two_runs, Situation, SITUATIONS};
use crate::jobs::Job;
use crate::response_time::End;

/// The counts of one entry's accepted cases.
#[derive(Clone, Copy, Debug, Default)]
pub struct SituationCounts {
    /// Cases with a policy 2 job. Their policy 2 jobs are those counted below.
    pub cases: usize,
    /// Cases that a marker says pass, with a job whose first bound is 0.
    pub passing_by_second: usize,
    /// By the situation's number.
    pub jobs: [usize; SITUATIONS.len()],
    /// Likewise, of the jobs with a deadline above the period.
    pub late_jobs: [usize; SITUATIONS.len()],
    /// Jobs both of whose runs close, at different instances.
    pub closed_apart: usize,
}

impl SituationCounts {
    /// Counts one policy 2 job and answers its situation.
    fn count_job(&mut self, jobs: &[Job], settings: &[Setting], index: usize) -> Situation {
        let [first, second] = two_runs(jobs, settings, index);
        let situation = Situation::of_bounds([first.bound(), second.bound()]);
        self.jobs[situation as usize] += 1;
        let is_late = jobs[index].deadline > jobs[index].period;
        self.late_jobs[situation as usize] += usize::from(is_late);
        let are_closed = first.end == End::Closed && second.end == End::Closed;
        let are_apart = first.last_instance != second.last_instance;
        self.closed_apart += usize::from(are_closed && are_apart);
        situation
    }
}

impl Counts for SituationCounts {
    fn count(&mut self, answered: &Answered) {
        let Answered { jobs, settings, .. } = answered;
        let mut situations = Vec::new();
        for (index, setting) in settings.iter().enumerate() {
            if setting.policy == ROUND_ROBIN {
                situations.push(self.count_job(jobs, settings, index));
            }
        }
        self.cases += usize::from(!situations.is_empty());
        let by_second = situations.contains(&Situation::SecondAlone);
        self.passing_by_second += usize::from(answered.passes && by_second);
    }

    fn lines(&self) -> Vec<(&'static str, usize)> {
        let [first_less, second_less, equal, first_alone, second_alone, neither] = self.jobs;
        let late = self.late_jobs;
        vec![
            ("cases with such a job", self.cases),
            ("passing by a second bound", self.passing_by_second),
            ("first less, not 0", first_less),
            ("second less, not 0", second_less),
            ("equal, not 0", equal),
            ("second 0, first not", first_alone),
            ("first 0, second not", second_alone),
            ("both 0", neither),
            ("D above T: first less, not 0", late[0]),
            ("D above T: second less, not 0", late[1]),
            ("D above T: equal, not 0", late[2]),
            ("D above T: second 0, first not", late[3]),
            ("D above T: first 0, second not", late[4]),
            ("D above T: both 0", late[5]),
            ("both closed, at different instances", self.closed_apart),
        ]
    }
}
