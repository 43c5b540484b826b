//! Worked calls that break bounds down: the figures that are known by hand, the edges of the
//! output's length, and each refusal alone.

use crate::entries::BREAKDOWN;
use crate::frames::Frame;
use crate::generation::random::Random;
use crate::generation::worked::{
    with_quanta, worked, List, Worked, COST_0, EIGHT, FALLING as LAYERS, ID_0, KEY, NONE, ONE,
    SAME_ID, THREE, TWO,
};

/// The list of E2, whose first job's second bound decides.
const LIGHT: List = &[(1, 0, 4, 20, 20), (2, 0, 2, 20, 20)];

/// The first job's bounds are the same, reached at instances 0 and 1.
const SAME_BOUNDS: List = &[(1, 1, 1, 3, 7), (2, 2, 3, 6, 13)];

/// The first job's second bound decides at instance 1.
const SECOND_LATER: List = &[(1, 0, 1, 2, 6), (2, 2, 2, 5, 13)];

/// The second job has the responses 114, 102, 116, 104, 118, 106 and 94.
const AT_INSTANCE_4: List = &[(1, 0, 26, 70, 70), (2, 0, 62, 100, 118)];

/// The same with a deadline that is one tick too short.
const ONE_TICK_SHORT: List = &[(1, 0, 26, 70, 70), (2, 0, 62, 100, 117)];

/// The second job has the responses 4, 4 and 3.
const REACHED_AGAIN: List = &[(1, 0, 1, 4, 4), (2, 1, 2, 3, 4)];

/// The longest delay, which leaves two ticks for the first job and five for the second.
const LONGEST_DELAY: List = &[(1, 255, 2, 500, 257), (2, 255, 3, 500, 260)];

/// Costs, periods and deadlines of the longest.
const LONGEST: List = &[
    (1, 0, 30_000, 60_000, 60_000),
    (255, 0, 30_000, 60_000, 60_000),
];

/// Two jobs with a level each, with one level, or not placed.
const RISING: &[[u8; 4]] = &[[1, 1, 1, 0], [2, 2, 1, 0]];
const FALLING: &[[u8; 4]] = &[[1, 2, 1, 0], [2, 1, 1, 0]];
const BOTH_4: &[[u8; 4]] = &[[1, 1, 2, 4], [2, 1, 2, 4]];
const NO_JOB: &[[u8; 4]] = &[[1, 0, 0, 0], [2, 0, 0, 0]];
const SECOND_JOB: &[[u8; 4]] = &[[1, 0, 0, 0], [2, 1, 1, 0]];

/// Some of eight jobs are not placed.
const NOT_FULL: &[[u8; 4]] = &[
    [1, 0, 0, 0],
    [2, 3, 2, 4],
    [3, 3, 2, 1],
    [4, 0, 0, 0],
    [5, 8, 1, 0],
    [6, 3, 2, 1],
    [7, 1, 1, 0],
    [8, 0, 0, 0],
];

const CALLS: [Worked; 41] = [
    worked(TWO, KEY, 44),
    worked(TWO, KEY, 45),
    worked(TWO, KEY, 43),
    worked(TWO, KEY, 22),
    worked(TWO, KEY, 0),
    worked(TWO, &[[1, 2, 2, 4], [2, 2, 2, 1]], 44),
    worked(TWO, RISING, 44),
    worked(TWO, FALLING, 46),
    worked(TWO, NO_JOB, 44),
    worked(TWO, NO_JOB, 43),
    worked(TWO, SECOND_JOB, 44),
    worked(ONE, &[[1, 1, 1, 0]], 22),
    worked(ONE, &[[1, 0, 0, 0]], 22),
    worked(ONE, &[[1, 1, 1, 0]], 21),
    worked(THREE, &[[1, 2, 1, 0], [2, 1, 1, 0], [3, 3, 1, 0]], 66),
    worked(THREE, &[[1, 2, 1, 0], [2, 0, 0, 0], [3, 3, 1, 0]], 66),
    worked(LIGHT, &[[1, 1, 2, 1], [2, 1, 2, 4]], 44),
    worked(SAME_BOUNDS, BOTH_4, 44),
    worked(SECOND_LATER, BOTH_4, 44),
    worked(AT_INSTANCE_4, RISING, 44),
    worked(AT_INSTANCE_4, SECOND_JOB, 44),
    worked(ONE_TICK_SHORT, RISING, 44),
    worked(REACHED_AGAIN, RISING, 44),
    worked(LONGEST_DELAY, RISING, 44),
    worked(LONGEST_DELAY, FALLING, 44),
    with_quanta(
        64,
        64,
        worked(LONGEST_DELAY, &[[1, 2, 2, 64], [2, 2, 2, 64]], 44),
    ),
    worked(LONGEST, &[[1, 2, 1, 0], [255, 1, 1, 0]], 44),
    with_quanta(
        64,
        64,
        worked(LONGEST, &[[1, 1, 2, 64], [255, 1, 2, 64]], 60),
    ),
    worked(EIGHT, LAYERS, 176),
    worked(EIGHT, NOT_FULL, 177),
    worked(EIGHT, LAYERS, 175),
    // Each refusal alone.
    worked(NONE, &[], 0),
    worked(ID_0, &[[0, 2, 2, 3], [2, 2, 2, 1]], 44),
    worked(SAME_ID, &[[1, 2, 2, 3], [1, 2, 2, 1]], 44),
    worked(COST_0, KEY, 44),
    with_quanta(4, 3, worked(TWO, KEY, 44)),
    worked(TWO, &[[1, 2, 1, 0]], 44),
    worked(TWO, &[[2, 2, 2, 3], [1, 2, 2, 1]], 44),
    worked(TWO, &[[1, 2, 2, 3], [2, 2, 2, 5]], 44),
    worked(TWO, &[[1, 2, 2, 3], [2, 0, 0, 0]], 44),
    worked(ONE, &[[1, 1, 2, 3]], 22),
];

/// The worked call that has this turn.
pub fn worked_breakdown(random: &mut Random, turn: usize) -> Frame {
    CALLS[turn % CALLS.len()].input(random, BREAKDOWN)
}
