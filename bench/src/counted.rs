//! The response-time test with its shortcuts, which counts its work.

use crate::calls::{Answer, Case};
use crate::same::job::Job;
use crate::same::planner::{Method, Search};
use crate::same::response::{Iteration, Load, Shortcuts};
use std::cell::Cell;

/// Counts about one for each division, as long as it is not paused.
#[derive(Default)]
pub struct Counted {
    work: Cell<u64>,
    paused: Cell<bool>,
}

impl Counted {
    fn add(&self, work: u32) {
        if !self.paused.get() {
            self.work.set(self.work.get() + u64::from(work));
        }
    }

    /// Runs something whose work is not counted.
    pub fn without<R>(&self, run: impl FnOnce() -> R) -> R {
        self.paused.set(true);
        let result = run();
        self.paused.set(false);
        result
    }
}

impl Iteration for &Counted {
    const PLAIN_STEPS: u32 = Shortcuts::PLAIN_STEPS;

    fn load(&self, of_set: impl FnOnce() -> Load) -> Load {
        Shortcuts.load(of_set)
    }

    fn start(&self, own: u64, load: Load, before: u32) -> Option<u64> {
        self.add(2);
        Shortcuts.start(own, load, before)
    }

    fn runs_on(&self, job: &Job, quantum: u32, others: u32, load: Load) -> bool {
        Shortcuts.runs_on(job, quantum, others, load)
    }

    fn evaluates(&self, set: u8) {
        self.add(1 + set.count_ones());
    }
}

/// The work of a planner with a search on a case.
pub fn work<S: Search>(case: &Case, counted: &Counted, search: S) -> u64 {
    let mut answer = Answer::blank();
    let (configuration, bounds) = (&mut answer.configuration, &mut answer.bounds);
    Method(counted, search).plan(&case.jobs, case.low, case.high, configuration, bounds);
    counted.work.get()
}
