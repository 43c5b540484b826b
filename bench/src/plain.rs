//! The planner with plain fixed-point iteration: it starts each instance from the instance's own
//! demand, whatever the utilisation above and wherever the instance before has finished.

use crate::same::job::Job;
use crate::same::planner::{Method, Raising};
use crate::same::response::{Iteration, Load};

/// The iteration from the own demand.
pub struct Plain;

impl Iteration for Plain {
    const PLAIN_STEPS: u32 = u32::MAX;

    fn load(&self, _of_set: impl FnOnce() -> Load) -> Load {
        Load::NONE
    }

    fn start(&self, own: u64, _load: Load, _before: u32) -> Option<u64> {
        Some(own)
    }

    fn runs_on(&self, _job: &Job, _quantum: u32, _others: u32, _load: Load) -> bool {
        false
    }
}

/// Plans a job block.
pub fn plan(block: &[u8], low: u8, high: u8, configuration: &mut [u8], bounds: &mut [u8]) -> u32 {
    Method(Plain, Raising).plan(block, low, high, configuration, bounds)
}
