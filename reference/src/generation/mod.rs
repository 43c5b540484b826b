//! The generation of cases: input frames for every entry, and their output frames.

pub mod breakdown_calls;
pub mod breakdown_lists;
pub mod breakdown_worked;
pub mod by_entry;
pub mod call;
pub mod configured;
pub mod delay_calls;
pub mod delay_counts;
pub mod delays;
pub mod effects;
pub mod feature_counts;
pub mod features;
pub mod gate_calls;
pub mod gate_counts;
pub mod gate_sizes;
pub mod gate_worked;
pub mod job_calls;
pub mod job_faults;
pub mod kernel_calls;
pub mod kernel_faults;
pub mod kernel_worked;
pub mod layers;
pub mod light_neighbour_calls;
pub mod light_neighbours;
pub mod lists;
pub mod long_deadline_calls;
pub mod long_deadlines;
pub mod order_counts;
pub mod orders;
pub mod period_calls;
pub mod period_lists;
pub mod period_shapes;
pub mod period_worked;
pub mod plan_counts;
pub mod plans;
pub mod random;
pub mod rounds;
pub mod run_counts;
pub mod runs;
pub mod searches;
pub mod setting_faults;
pub mod short_deadline_calls;
pub mod situation_counts;
pub mod situations;
pub mod summary;
pub mod worked;

pub use breakdown_calls::BREAKDOWNS;
pub use delay_calls::DELAYS;
pub use gate_calls::START_GATE;
pub use kernel_calls::KERNEL_RECORDS;
pub use light_neighbour_calls::LIGHT_NEIGHBOURS;
pub use long_deadline_calls::LONG_DEADLINES;
pub use period_calls::PERIODS;
pub use short_deadline_calls::SHORT_DEADLINES;

use std::ops::Range;

use crate::entries::faults::Fault;
use crate::entries::same_bytes::LONG_BLOCKS;
use crate::entries::{answer, faults_present, jobs_of_call, place_of_entry};
use crate::frames::Frame;
use crate::jobs::Job;
use rounds::{place_in_turn, Kind, Row};

/// The kinds of cases in the order of their cases. After the last kind the first comes again, with
/// further cases of it.
pub const KINDS: &[&Kind] = &[
    &SHORT_DEADLINES,
    &LONG_DEADLINES,
    &LIGHT_NEIGHBOURS,
    &DELAYS,
    &LONG_BLOCKS,
    &KERNEL_RECORDS,
    &BREAKDOWNS,
    &PERIODS,
    &START_GATE,
];

/// The place of a case's kind among the kinds, and how many cases of that kind come before it.
pub fn kind_of_case(case: usize) -> (usize, usize) {
    let cases: Vec<usize> = KINDS.iter().map(|kind| kind.cases).collect();
    place_in_turn(&cases, case)
}

/// The place of a kind among the kinds.
pub fn place_of_kind(kind: &Kind) -> usize {
    let is_same = |other: &&Kind| other.name == kind.name;
    KINDS
        .iter()
        .position(is_same)
        .expect("a kind is a row of the kinds")
}

/// The first cases of a kind.
pub fn cases_of_kind(kind: &Kind) -> Range<usize> {
    let before = &KINDS[..place_of_kind(kind)];
    let start = before.iter().map(|kind| kind.cases).sum();
    start..start + kind.cases
}

/// The row of a case, and how many cases of that row come before it.
fn row_of_case(case: usize) -> (&'static Row, usize) {
    let (place, case_of_kind) = kind_of_case(case);
    KINDS[place].row_of_case(case_of_kind)
}

/// The entry of a case.
pub fn entry_of_case(case: usize) -> u8 {
    row_of_case(case).0.entry
}

/// The input frame of a case, which depends on the seed and the case's number alone.
pub fn input_of_case(seed: u64, case: usize) -> Frame {
    let (row, turn) = row_of_case(case);
    row.input(seed, case, turn)
}

/// What lets a case be asked for its entry's answers.
const DRAWN: &str = "a call is drawn with the parts that its entry is given";

/// One call and what it answers.
#[derive(Clone, Debug, PartialEq, Eq)]
pub struct Case {
    pub input: Frame,
    pub output: Frame,
}

impl Case {
    /// The case of an input frame that is drawn with its entry's parts.
    fn of_input(input: Frame) -> Case {
        let output = answer(&input).expect(DRAWN);
        Case { input, output }
    }

    /// The place of its entry among the entries.
    pub fn place_of_entry(&self) -> usize {
        place_of_entry(self.input.head).expect(DRAWN)
    }

    /// All faults present.
    pub fn faults(&self) -> Vec<Fault> {
        faults_present(&self.input).expect(DRAWN)
    }

    /// The jobs of a case that is accepted.
    pub fn jobs(&self) -> Vec<Job> {
        jobs_of_call(&self.input).expect(DRAWN)
    }
}

/// So many cases.
pub fn cases(seed: u64, count: usize) -> Vec<Case> {
    let numbers = 0..count;
    numbers
        .map(|case| Case::of_input(input_of_case(seed, case)))
        .collect()
}
