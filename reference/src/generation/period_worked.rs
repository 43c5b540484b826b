//! Worked calls of the planner and of the key program: the exam lists, and lists at the edges of
//! E7's order.

use crate::configuration::QuantumRange;
use crate::entries::{key, plan};
use crate::frames::Frame;
use crate::generation::call::{accepted_input, Parts};
use crate::generation::random::Random;
use crate::generation::worked::{
    jobs_of_list, List, EIGHT, ONE, ONE_OF_THREE, THREE, TWO, TWO_LEVELS, WITHOUT_SLACK,
};
use crate::key::KEY_RANGE;

/// No job fits alone. The periods 4 and 10 have the sum of 8 and 6, so the second and the third job
/// are considered before the first and the last, which are taken.
const EQUAL_SUMS: List = &[
    (1, 0, 1, 4, 6),
    (2, 0, 1, 8, 4),
    (3, 0, 2, 6, 4),
    (4, 0, 2, 10, 10),
];

/// No job fits alone. The first and the third job could be taken, and so could the second and the
/// last: their sums are the same.
const EITHER_PAIR: List = &[
    (1, 0, 3, 8, 11),
    (2, 0, 2, 16, 18),
    (3, 0, 3, 20, 20),
    (4, 0, 3, 12, 15),
];

/// No job fits alone, and the first two are taken. Their sum is 65,536, and that of the last two is
/// one below it, the same, and one above.
const SUM_BELOW: List = &[
    (1, 0, 12_000, 16_002, 16_002),
    (2, 0, 10_000, 49_534, 44_000),
    (3, 0, 1, 16_001, 1),
];
const SAME_SUM: List = &[
    (1, 0, 12_000, 16_002, 16_002),
    (2, 0, 10_000, 49_534, 44_000),
    (3, 0, 1, 16_002, 1),
];
const SUM_ABOVE: List = &[
    (1, 0, 12_000, 16_002, 16_002),
    (2, 0, 10_000, 49_534, 44_000),
    (3, 0, 1, 16_003, 1),
];

/// Eight periods, seven of which are the longest.
const LONGEST: List = &[
    (1, 0, 1, 60_000, 60_000),
    (2, 0, 1, 60_000, 60_000),
    (3, 0, 1, 60_000, 60_000),
    (4, 0, 1, 60_000, 60_000),
    (5, 0, 1, 59_999, 60_000),
    (6, 0, 1, 60_000, 60_000),
    (7, 0, 1, 60_000, 60_000),
    (8, 0, 1, 60_000, 60_000),
];

/// The range of K3 and K9.
const NARROW: QuantumRange = QuantumRange {
    lowest: 1,
    highest: 2,
};

const PLANS: [(List, QuantumRange); 14] = [
    (ONE, KEY_RANGE),
    (TWO, KEY_RANGE),
    (TWO, NARROW),
    (THREE, KEY_RANGE),
    (TWO_LEVELS, KEY_RANGE),
    (WITHOUT_SLACK, KEY_RANGE),
    (ONE_OF_THREE, NARROW),
    (EQUAL_SUMS, KEY_RANGE),
    (EITHER_PAIR, KEY_RANGE),
    (SUM_BELOW, KEY_RANGE),
    (SAME_SUM, KEY_RANGE),
    (SUM_ABOVE, KEY_RANGE),
    (LONGEST, KEY_RANGE),
    (EIGHT, KEY_RANGE),
];

const KEYS: [List; 8] = [
    ONE,
    TWO,
    THREE,
    TWO_LEVELS,
    WITHOUT_SLACK,
    ONE_OF_THREE,
    EITHER_PAIR,
    LONGEST,
];

/// The planner's worked call that has this turn.
pub fn worked_plan(random: &mut Random, turn: usize) -> Frame {
    let (list, range) = PLANS[turn % PLANS.len()];
    let parts = Parts::of_jobs(jobs_of_list(list), range);
    accepted_input(random, &plan::GIVEN, &parts)
}

/// The key program's worked call that has this turn.
pub fn worked_key(random: &mut Random, turn: usize) -> Frame {
    let list = KEYS[turn % KEYS.len()];
    let parts = Parts::of_jobs(jobs_of_list(list), KEY_RANGE);
    accepted_input(random, &key::GIVEN, &parts)
}
