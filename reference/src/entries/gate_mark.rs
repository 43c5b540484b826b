//! Entry 15, the gate's marker. Given and answered: as entry 6.

use crate::entries::faults::faults_of_gate;
use crate::entries::mark::{self, answer_of_mark, faults_of_mark};
use crate::entries::{jobs_of_first_block, Entry};
use crate::gate::gate_mark;
use crate::generation::call::Given;

pub const GATE_MARK: u8 = 15;

pub const ENTRY: Entry = Entry {
    number: GATE_MARK,
    name: "gate_mark",
    answer: |input| answer_of_mark(input, gate_mark),
    faults: |input| faults_of_gate(input, faults_of_mark),
    jobs: jobs_of_first_block,
};

pub const GIVEN: Given = Given {
    entry: GATE_MARK,
    ..mark::GIVEN
};
