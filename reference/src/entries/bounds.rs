//! Entry 5. Given: the lowest and the highest quantum; the job block, the configuration block, the
//! output. Answered: no numbers; the output.

use crate::entries::faults::faults_of_configured;
use crate::entries::{answer_of_configured, jobs_of_first_block, Entry};
use crate::generation::call::{Form, Given, Lent, Range};
use crate::response_time::{bounds, BOUND_BYTES};

pub const BOUNDS: u8 = 5;

pub const ENTRY: Entry = Entry {
    number: BOUNDS,
    name: "bounds",
    answer: |input| answer_of_configured(input, bounds),
    faults: |input| faults_of_configured(input, BOUND_BYTES),
    jobs: jobs_of_first_block,
};

pub const GIVEN: Given = Given {
    entry: BOUNDS,
    range: Range::Any,
    jobs: Form::Block,
    settings: Some(Form::Block),
    full: false,
    outputs: &[Lent {
        bytes_per_job: BOUND_BYTES,
        longest: 80,
    }],
};
