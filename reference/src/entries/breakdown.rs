//! Entry 13. Given: the lowest and the highest quantum; the job block, the configuration block, the
//! output. Answered: no numbers; the output.

use crate::breakdown::{breakdown, BREAKDOWN_BYTES};
use crate::entries::faults::faults_of_configured;
use crate::entries::{answer_of_configured, bounds, jobs_of_first_block, Entry};
use crate::generation::call::{Given, Lent};

pub const BREAKDOWN: u8 = 13;

pub const ENTRY: Entry = Entry {
    number: BREAKDOWN,
    name: "breakdown",
    answer: |input| answer_of_configured(input, breakdown),
    faults: |input| faults_of_configured(input, BREAKDOWN_BYTES),
    jobs: jobs_of_first_block,
};

/// It is given what the bounds entry is given, and lent more.
pub const GIVEN: Given = Given {
    entry: BREAKDOWN,
    outputs: &[Lent {
        bytes_per_job: BREAKDOWN_BYTES,
        longest: 200,
    }],
    ..bounds::GIVEN
};
