//! Entry 14, the gate's planner. Given and answered: as entry 7.

use crate::entries::faults::faults_of_gate;
use crate::entries::plan::{self, answer_of_plan, faults_of_plan};
use crate::entries::{jobs_of_first_block, Entry};
use crate::gate::gate_plan;
use crate::generation::call::Given;

pub const GATE_PLAN: u8 = 14;

pub const ENTRY: Entry = Entry {
    number: GATE_PLAN,
    name: "gate_plan",
    answer: |input| answer_of_plan(input, gate_plan),
    faults: |input| faults_of_gate(input, faults_of_plan),
    jobs: jobs_of_first_block,
};

pub const GIVEN: Given = Given {
    entry: GATE_PLAN,
    ..plan::GIVEN
};
