//! What a call is given and what it answers.

use crate::same::breakdown::PARTS_SIZE;
use crate::same::job::{Job, JOB_SIZE};
use crate::same::marker::BOUND_SIZE;
use crate::same::setting::{Setting, ROUND_ROBIN, SETTING_SIZE};
use crate::same::{first_jobs, MOST_JOBS};

/// The planner's entry: a job block, a range, and the outputs for configuration and bounds.
pub type Plan = fn(&[u8], u8, u8, &mut [u8], &mut [u8]) -> u32;

/// The entry of the bounds, the marker or the breakdown: a job block, a range, a configuration
/// block, and the output for bounds or their parts.
pub type Mark = fn(&[u8], u8, u8, &[u8], &mut [u8]) -> u32;

/// The entry that converts to kernel records, or back: a job block, a range, the lowest and the
/// highest priority, a block to convert, and the output for the other block.
pub type Convert = fn(&[u8], (u8, u8), (u8, u8), &[u8], &mut [u8]) -> u32;

/// What a call is given; the planner is not given the configuration.
#[derive(Clone)]
pub struct Case {
    pub jobs: Vec<u8>,
    pub low: u8,
    pub high: u8,
    pub configuration: Vec<u8>,
}

/// The answer's word and all outputs. The outputs are full of ones before a call, so that a byte
/// that is written in excess shows.
#[derive(Clone, PartialEq, Eq, Debug)]
pub struct Answer {
    pub word: u32,
    pub configuration: [u8; MOST_JOBS * SETTING_SIZE],
    pub bounds: [u8; MOST_JOBS * BOUND_SIZE],
    pub parts: [u8; MOST_JOBS * PARTS_SIZE],
}

impl Answer {
    pub fn blank() -> Answer {
        Answer {
            word: 0,
            configuration: [255; MOST_JOBS * SETTING_SIZE],
            bounds: [255; MOST_JOBS * BOUND_SIZE],
            parts: [255; MOST_JOBS * PARTS_SIZE],
        }
    }

    /// The set of jobs that a planner has placed.
    pub fn placed(&self) -> u8 {
        (self.word >> 8) as u8
    }
}

impl Case {
    /// The call of the planner for a list and a range.
    pub fn plan(jobs: &[Job], (low, high): (u8, u8)) -> Case {
        Case {
            jobs: jobs.iter().flat_map(Job::record).collect(),
            low,
            high,
            configuration: Vec::new(),
        }
    }

    /// The call of the marker for a list, a range and settings.
    pub fn mark(jobs: &[Job], range: (u8, u8), settings: &[Setting]) -> Case {
        Case {
            configuration: settings.iter().flat_map(Setting::record).collect(),
            ..Case::plan(jobs, range)
        }
    }

    /// The number of jobs.
    pub fn count(&self) -> usize {
        self.jobs.len() / JOB_SIZE
    }

    /// Calls a planner; the answer is written over.
    #[inline(always)]
    pub fn call_plan(&self, plan: Plan, answer: &mut Answer) {
        answer.word = plan(
            &self.jobs,
            self.low,
            self.high,
            &mut answer.configuration,
            &mut answer.bounds,
        );
    }

    /// Calls the bounds or the marker; the answer is written over.
    #[inline(always)]
    pub fn call_mark(&self, mark: Mark, answer: &mut Answer) {
        answer.word = mark(
            &self.jobs,
            self.low,
            self.high,
            &self.configuration,
            &mut answer.bounds,
        );
    }

    /// Calls the breakdown; the answer is written over.
    #[inline(always)]
    pub fn call_breakdown(&self, breakdown: Mark, answer: &mut Answer) {
        answer.word = breakdown(
            &self.jobs,
            self.low,
            self.high,
            &self.configuration,
            &mut answer.parts,
        );
    }

    /// Calls a conversion of the configuration or the kernel block; the answer is written over.
    #[inline(always)]
    pub fn call_convert(&self, priorities: (u8, u8), convert: Convert, answer: &mut Answer) {
        answer.word = convert(
            &self.jobs,
            (self.low, self.high),
            priorities,
            &self.configuration,
            &mut answer.configuration,
        );
    }

    /// The answer of a call.
    fn answered(&self, call: impl Fn(&Case, &mut Answer)) -> Answer {
        let mut answer = Answer::blank();
        call(self, &mut answer);
        answer
    }

    /// The answer of a conversion.
    pub fn converted(&self, priorities: (u8, u8), convert: Convert) -> Answer {
        self.answered(|case, answer| case.call_convert(priorities, convert, answer))
    }

    /// The answer of a planner.
    pub fn planned(&self, plan: Plan) -> Answer {
        self.answered(|case, answer| case.call_plan(plan, answer))
    }

    /// The answer of the bounds or the marker.
    pub fn marked(&self, mark: Mark) -> Answer {
        self.answered(|case, answer| case.call_mark(mark, answer))
    }

    /// The answer of the breakdown.
    pub fn broken_down(&self, breakdown: Mark) -> Answer {
        self.answered(|case, answer| case.call_breakdown(breakdown, answer))
    }

    /// Whether an answer of a planner places every job and has a shared level.
    pub fn is_shared(&self, answer: &Answer) -> bool {
        let records = answer.configuration.chunks_exact(SETTING_SIZE);
        let mut policies = records.take(self.count()).map(|record| record[2]);
        answer.placed() == first_jobs(self.count()) && policies.any(|each| each == ROUND_ROBIN)
    }
}
