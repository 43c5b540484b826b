//! The faults present in a call, each refusal judged by itself without regard to the others.

use crate::configuration::{
    judge_range, judge_setting_identity, judge_shapes, judge_sharing, settings_of_records,
    QuantumRange, Setting, SETTING_BYTES,
};
use crate::frames::Frame;
use crate::gate::{judge_limits, Limits};
use crate::jobs::{
    jobs_of_records, judge_block_length, judge_identity, judge_order, judge_times, Job,
};
use crate::kernel::judge_priority_range;
use crate::refusal::{judge_output, Refusal};

/// A refusal that applies, and the first record that it applies to if it is about single records.
#[derive(Clone, Copy, Debug, PartialEq, Eq)]
pub struct Fault {
    pub refusal: Refusal,
    pub place: Option<Place>,
}

/// The place of a record: its block among the input frame's, and its place there.
#[derive(Clone, Copy, Debug, PartialEq, Eq)]
pub struct Place {
    pub block: usize,
    pub record: usize,
}

/// The place of the jobs among the blocks of an input frame.
const JOBS: usize = 0;

/// The place of the configuration, or of the kernel records, among the blocks of an input frame.
pub const CONFIGURATION: usize = 1;

/// The faults found so far.
#[derive(Default)]
pub struct Faults(Vec<Fault>);

impl Faults {
    /// All faults found.
    pub fn found(self) -> Vec<Fault> {
        self.0
    }

    /// Notes a refusal of the whole call.
    pub fn judge(&mut self, verdict: Result<(), Refusal>) {
        if let Err(refusal) = verdict {
            self.0.push(Fault {
                refusal,
                place: None,
            });
        }
    }

    /// Notes a refusal at the first record with which the records of a block so far are refused.
    pub fn judge_records<T>(
        &mut self,
        block: usize,
        records: &[T],
        verdict: impl Fn(&[T]) -> Result<(), Refusal>,
    ) {
        for record in 0..records.len() {
            if let Err(refusal) = verdict(&records[..=record]) {
                self.0.push(Fault {
                    refusal,
                    place: Some(Place { block, record }),
                });
                return;
            }
        }
    }

    /// Refusals 2, 3 and 5.
    pub fn judge_jobs(&mut self, jobs: &[Job]) {
        self.judge_records(JOBS, jobs, judge_identity);
        self.judge_records(JOBS, jobs, judge_order);
        self.judge_records(JOBS, jobs, judge_times);
    }

    /// Refusals 1, 2, 3 and 5 of a block, whose jobs are answered.
    pub fn judge_job_block(&mut self, block: &[u8]) -> Vec<Job> {
        self.judge(judge_block_length(block));
        let jobs = jobs_of_records(block);
        self.judge_jobs(&jobs);
        jobs
    }

    /// Refusal 6. The range is answered as it stands.
    pub fn judge_range(&mut self, lowest: u8, highest: u8) -> QuantumRange {
        self.judge(judge_range(lowest, highest).map(|_| ()));
        QuantumRange { lowest, highest }
    }

    /// Refusal 13.
    pub fn judge_priority_range(&mut self, lowest: u8, highest: u8, jobs: &[Job]) {
        self.judge(judge_priority_range(lowest, highest, jobs.len()).map(|_| ()));
    }

    /// Refusals 7 to 10 of settings that are as many as the jobs or not.
    pub fn judge_settings(
        &mut self,
        jobs: &[Job],
        range: QuantumRange,
        settings: &[Setting],
        are_as_many: bool,
    ) {
        if !are_as_many {
            self.judge(Err(Refusal::ConfigurationCount));
        }
        self.judge_records(CONFIGURATION, settings, |some| {
            judge_setting_identity(jobs, some)
        });
        self.judge_records(CONFIGURATION, settings, |some| {
            judge_shapes(some, jobs.len(), range)
        });
        self.judge(judge_sharing(settings));
    }

    /// Refusals 1 to 3 and 5 to 10 of a job block, a range and a configuration block. The jobs and
    /// the settings are answered.
    pub fn judge_configured(
        &mut self,
        job_block: &[u8],
        lowest: u8,
        highest: u8,
        configuration_block: &[u8],
    ) -> (Vec<Job>, Vec<Setting>) {
        let jobs = self.judge_job_block(job_block);
        let range = self.judge_range(lowest, highest);
        let settings = settings_of_records(configuration_block);
        let are_as_many = configuration_block.len() == SETTING_BYTES * jobs.len();
        self.judge_settings(&jobs, range, &settings, are_as_many);
        (jobs, settings)
    }

    /// Refusal 12 of outputs, each with its need.
    pub fn judge_outputs(&mut self, outputs: &[(&[u8], usize)]) {
        let mut outputs = outputs.iter();
        self.judge(outputs.try_for_each(|(output, need)| judge_output(output, *need)));
    }
}

/// The faults of a call that is given a range, a job block and a configuration block, and lent an
/// output with a need of so many bytes for each job.
pub fn faults_of_configured(input: &Frame, bytes_per_job: usize) -> Option<Vec<Fault>> {
    let ([lowest, highest], [jobs, configuration, output]) = input.parts()?;
    let mut faults = Faults::default();
    let (jobs, _) = faults.judge_configured(jobs, lowest, highest, configuration);
    faults.judge_outputs(&[(output, bytes_per_job * jobs.len())]);
    Some(faults.found())
}

/// The faults of a call of the gate, which has those of the mats' call and refusal 15. That one
/// counts all whole records of the job block, accepted or not, and takes the highest quantum as it
/// stands.
pub fn faults_of_gate(
    input: &Frame,
    faults_of_mats: fn(&Frame) -> Option<Vec<Fault>>,
) -> Option<Vec<Fault>> {
    let ([_, highest], [jobs, _, _]) = input.parts()?;
    let mut faults = Faults(faults_of_mats(input)?);
    faults.judge(judge_limits(
        Limits::GATE,
        jobs_of_records(jobs).len(),
        highest,
    ));
    Some(faults.found())
}
