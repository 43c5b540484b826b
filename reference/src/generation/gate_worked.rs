//! Worked calls of the start gate: the exam lists, calls at its limits and one past them, and each
//! refusal within the limits and past them.

use crate::entries::{GATE_MARK, GATE_PLAN};
use crate::frames::Frame;
use crate::generation::random::Random;
use crate::generation::worked::{
    jobs_of_list, with_quanta, worked, List, Worked, COST_0, EIGHT, FALLING, FIVE, FOUR, ID_0, KEY,
    NINE, NONE, ONE, ONE_OF_THREE, SAME_ID, THREE, TWO, TWO_LEVELS, WITHOUT_SLACK,
};
use crate::jobs::records_of_jobs;

/// The two jobs share a level, and the first has a cycle less with a quantum of 16 than with 15:
/// with up to 15 nothing is placed.
const NEEDS_16: List = &[(1, 0, 32, 34, 34), (2, 0, 5, 85, 85)];

/// The same with a quantum of 17, which the gate does not take.
const NEEDS_17: List = &[(1, 0, 34, 36, 36), (2, 0, 5, 90, 90)];

/// Four jobs of which the first two share a level, and the last one has a delay and a deadline past
/// its period.
const FOUR_SHARING: List = &[
    (1, 0, 6, 8, 8),
    (2, 0, 5, 22, 22),
    (3, 0, 1, 100, 100),
    (4, 3, 1, 100, 400),
];

/// Five jobs with an id of 0, with the same id twice and with a cost of 0.
const FIVE_ID_0: List = &[
    (0, 0, 1, 100, 100),
    (2, 0, 1, 100, 100),
    (3, 0, 1, 100, 100),
    (4, 0, 1, 100, 100),
    (5, 0, 1, 100, 100),
];
const FIVE_SAME_ID: List = &[
    (1, 0, 1, 100, 100),
    (2, 0, 1, 100, 100),
    (3, 0, 1, 100, 100),
    (4, 0, 1, 100, 100),
    (4, 0, 1, 100, 100),
];
const FIVE_COST_0: List = &[
    (1, 0, 1, 100, 100),
    (2, 0, 1, 100, 100),
    (3, 0, 1, 100, 100),
    (4, 0, 1, 100, 100),
    (5, 0, 0, 100, 100),
];

/// A list, the lowest and the highest quantum, and the lengths of both outputs.
type WorkedPlan = (List, [u8; 2], [usize; 2]);

const PLANS: [WorkedPlan; 60] = [
    // K1, K2, K3, K4, K7, K8 and K9.
    (ONE, [1, 4], [4, 2]),
    (TWO, [1, 4], [8, 4]),
    (TWO, [1, 2], [8, 4]),
    (THREE, [1, 4], [12, 6]),
    (TWO_LEVELS, [1, 4], [8, 4]),
    (WITHOUT_SLACK, [1, 4], [8, 4]),
    (ONE_OF_THREE, [1, 2], [12, 6]),
    // The highest quantum and the number of jobs at the limits.
    (TWO, [1, 16], [8, 4]),
    (TWO, [16, 16], [8, 4]),
    (ONE, [16, 16], [4, 2]),
    (ONE, [1, 1], [4, 2]),
    (ONE_OF_THREE, [1, 16], [13, 6]),
    (NEEDS_16, [1, 16], [8, 4]),
    (NEEDS_16, [1, 15], [8, 4]),
    (NEEDS_17, [1, 16], [8, 4]),
    (FOUR, [1, 16], [16, 8]),
    (FOUR_SHARING, [1, 16], [17, 9]),
    (FOUR_SHARING, [1, 2], [16, 8]),
    // One of them, or both, past the limits.
    (ONE, [1, 17], [4, 2]),
    (ONE, [17, 17], [4, 2]),
    (ONE, [1, 64], [4, 2]),
    (ONE, [64, 64], [4, 2]),
    (NEEDS_16, [1, 17], [8, 4]),
    (NEEDS_17, [1, 17], [8, 4]),
    (FOUR, [1, 17], [16, 8]),
    (FIVE, [1, 4], [20, 10]),
    (FIVE, [1, 16], [20, 10]),
    (FIVE, [1, 17], [20, 10]),
    (EIGHT, [1, 16], [32, 16]),
    (EIGHT, [1, 64], [32, 16]),
    // Outputs that are too short, within the limits and past them.
    (FOUR, [1, 16], [15, 8]),
    (FOUR, [1, 16], [16, 7]),
    (FOUR, [1, 16], [0, 0]),
    (FOUR, [1, 17], [15, 8]),
    (FOUR, [1, 17], [0, 0]),
    (FIVE, [1, 16], [19, 10]),
    (FIVE, [1, 16], [16, 8]),
    (FIVE, [1, 4], [0, 0]),
    // Faults of the range.
    (TWO, [0, 4], [8, 4]),
    (TWO, [0, 16], [8, 4]),
    (TWO, [0, 17], [8, 4]),
    (TWO, [17, 16], [8, 4]),
    (TWO, [18, 17], [8, 4]),
    (TWO, [1, 65], [8, 4]),
    (FIVE, [0, 4], [20, 10]),
    (FIVE, [5, 4], [20, 10]),
    (FIVE, [1, 65], [20, 10]),
    // Faults of the jobs.
    (NONE, [1, 4], [0, 0]),
    (NONE, [1, 17], [0, 0]),
    (NINE, [1, 4], [36, 18]),
    (NINE, [1, 17], [36, 18]),
    (ID_0, [1, 4], [8, 4]),
    (ID_0, [1, 17], [8, 4]),
    (FIVE_ID_0, [1, 4], [20, 10]),
    (SAME_ID, [1, 17], [8, 4]),
    (FIVE_SAME_ID, [1, 4], [20, 10]),
    (COST_0, [1, 17], [8, 4]),
    (COST_0, [0, 17], [8, 4]),
    (FIVE_COST_0, [1, 4], [20, 10]),
    (FIVE_COST_0, [1, 17], [20, 10]),
];

/// Two jobs with a level each, and with one level and quanta of 16 and 17.
const RISING: &[[u8; 4]] = &[[1, 1, 1, 0], [2, 2, 1, 0]];
const BOTH_16: &[[u8; 4]] = &[[1, 1, 2, 16], [2, 1, 2, 16]];
const WITH_17: &[[u8; 4]] = &[[1, 1, 2, 17], [2, 1, 2, 1]];

/// Five jobs and four with a level each.
const FIVE_LEVELS: &[[u8; 4]] = &[
    [1, 1, 1, 0],
    [2, 2, 1, 0],
    [3, 3, 1, 0],
    [4, 4, 1, 0],
    [5, 5, 1, 0],
];
const FOUR_LEVELS: &[[u8; 4]] = FIVE_LEVELS.split_at(4).0;

/// Four jobs on one level, with the highest quantum of the gate.
const ONE_LEVEL: &[[u8; 4]] = &[[1, 4, 2, 16], [2, 4, 2, 16], [3, 4, 2, 16], [4, 4, 2, 16]];

/// Four jobs, of which one is on level 5.
const LEVEL_5: &[[u8; 4]] = &[[1, 1, 1, 0], [2, 2, 1, 0], [3, 3, 1, 0], [4, 5, 1, 0]];

/// Faults in the configuration of five jobs: another id, a level above 5, a quantum of 17, a level
/// that policy 1 jobs share, and a job not placed.
const OTHER_ID: &[[u8; 4]] = &[
    [1, 1, 1, 0],
    [2, 2, 1, 0],
    [3, 3, 1, 0],
    [4, 4, 1, 0],
    [6, 5, 1, 0],
];
const LEVEL_6: &[[u8; 4]] = &[
    [1, 1, 1, 0],
    [2, 2, 1, 0],
    [3, 3, 1, 0],
    [4, 4, 1, 0],
    [5, 6, 1, 0],
];
const FIVE_WITH_17: &[[u8; 4]] = &[
    [1, 1, 1, 0],
    [2, 2, 1, 0],
    [3, 3, 1, 0],
    [4, 4, 2, 17],
    [5, 4, 2, 1],
];
const SHARED: &[[u8; 4]] = &[
    [1, 1, 1, 0],
    [2, 2, 1, 0],
    [3, 3, 1, 0],
    [4, 4, 1, 0],
    [5, 4, 1, 0],
];
const NOT_PLACED: &[[u8; 4]] = &[
    [1, 1, 1, 0],
    [2, 2, 1, 0],
    [3, 3, 1, 0],
    [4, 4, 1, 0],
    [5, 0, 0, 0],
];

/// K9's configuration, of which two jobs are not placed.
const THIRD_JOB: &[[u8; 4]] = &[[1, 0, 0, 0], [2, 0, 0, 0], [3, 3, 1, 0]];

const MARKS: [Worked; 60] = [
    // K1, K2, K4, K5, K6 and K7; two jobs without slack; and K9.
    worked(ONE, &[[1, 1, 1, 0]], 2),
    worked(TWO, KEY, 4),
    worked(THREE, &[[1, 1, 1, 0], [2, 2, 1, 0], [3, 3, 1, 0]], 6),
    worked(TWO, &[[1, 2, 2, 4], [2, 2, 2, 1]], 4),
    worked(TWO, RISING, 4),
    worked(TWO_LEVELS, RISING, 4),
    worked(WITHOUT_SLACK, RISING, 5),
    with_quanta(1, 2, worked(ONE_OF_THREE, THIRD_JOB, 6)),
    // The highest quantum and the number of jobs at the limits.
    with_quanta(1, 16, worked(TWO, KEY, 4)),
    with_quanta(16, 16, worked(TWO, BOTH_16, 4)),
    with_quanta(1, 16, worked(NEEDS_16, &[[1, 2, 2, 16], [2, 2, 2, 1]], 4)),
    with_quanta(1, 15, worked(NEEDS_16, &[[1, 2, 2, 15], [2, 2, 2, 1]], 4)),
    with_quanta(1, 16, worked(NEEDS_17, &[[1, 2, 2, 16], [2, 2, 2, 1]], 4)),
    worked(FOUR, FOUR_LEVELS, 8),
    with_quanta(1, 16, worked(FOUR, ONE_LEVEL, 9)),
    with_quanta(
        1,
        16,
        worked(
            FOUR_SHARING,
            &[[1, 1, 2, 3], [2, 1, 2, 1], [3, 3, 1, 0], [4, 4, 1, 0]],
            8,
        ),
    ),
    // A quantum of 17 in a record, of 16 in a narrower range, and the highest quantum past the limit.
    with_quanta(1, 16, worked(TWO, WITH_17, 4)),
    with_quanta(1, 15, worked(TWO, BOTH_16, 4)),
    with_quanta(1, 17, worked(TWO, WITH_17, 4)),
    with_quanta(1, 17, worked(TWO, BOTH_16, 4)),
    with_quanta(1, 17, worked(ONE, &[[1, 1, 1, 0]], 2)),
    with_quanta(17, 17, worked(ONE, &[[1, 1, 1, 0]], 2)),
    with_quanta(1, 64, worked(TWO, KEY, 4)),
    // The number of jobs past the limit.
    worked(FIVE, FIVE_LEVELS, 10),
    with_quanta(1, 16, worked(FIVE, FIVE_LEVELS, 10)),
    with_quanta(1, 17, worked(FIVE, FIVE_LEVELS, 10)),
    worked(EIGHT, FALLING, 16),
    with_quanta(1, 64, worked(EIGHT, FALLING, 16)),
    // Five jobs with each later fault.
    worked(FIVE, &[], 10),
    worked(FIVE, FOUR_LEVELS, 10),
    worked(FIVE, OTHER_ID, 10),
    worked(FIVE, LEVEL_6, 10),
    with_quanta(1, 16, worked(FIVE, FIVE_WITH_17, 10)),
    worked(FIVE, SHARED, 10),
    worked(FIVE, NOT_PLACED, 10),
    worked(FIVE, FIVE_LEVELS, 9),
    // A highest quantum of 17 with each later fault.
    with_quanta(1, 17, worked(FOUR, FIVE_LEVELS, 8)),
    with_quanta(1, 17, worked(TWO, &[[2, 1, 1, 0], [1, 2, 1, 0]], 4)),
    with_quanta(1, 17, worked(TWO, &[[1, 1, 2, 18], [2, 1, 2, 1]], 4)),
    with_quanta(1, 17, worked(TWO, &[[1, 1, 1, 0], [2, 1, 1, 0]], 4)),
    with_quanta(1, 17, worked(TWO, &[[1, 1, 1, 0], [2, 0, 0, 0]], 4)),
    with_quanta(1, 17, worked(TWO, KEY, 3)),
    // Later faults within the limits: five records, a level above 4, and outputs that are too short.
    worked(FOUR, FIVE_LEVELS, 8),
    worked(FOUR, LEVEL_5, 8),
    worked(FOUR, FOUR_LEVELS, 7),
    worked(FOUR, FOUR_LEVELS, 0),
    // Faults of the range.
    with_quanta(0, 4, worked(TWO, KEY, 4)),
    with_quanta(0, 17, worked(TWO, KEY, 4)),
    with_quanta(17, 16, worked(TWO, KEY, 4)),
    with_quanta(18, 17, worked(TWO, KEY, 4)),
    with_quanta(1, 65, worked(TWO, KEY, 4)),
    with_quanta(0, 16, worked(FIVE, FIVE_LEVELS, 10)),
    // Faults of the jobs.
    worked(NONE, &[], 0),
    worked(NINE, FALLING, 18),
    worked(ID_0, &[[0, 2, 2, 3], [2, 2, 2, 1]], 4),
    with_quanta(1, 17, worked(ID_0, &[[0, 2, 2, 3], [2, 2, 2, 1]], 4)),
    with_quanta(1, 17, worked(SAME_ID, &[[1, 2, 2, 3], [1, 2, 2, 1]], 4)),
    with_quanta(1, 17, worked(COST_0, KEY, 4)),
    worked(FIVE_COST_0, FIVE_LEVELS, 10),
    with_quanta(0, 17, worked(FIVE_COST_0, FIVE_LEVELS, 10)),
];

/// The worked call of the gate's planner that has this turn.
pub fn worked_plan(random: &mut Random, turn: usize) -> Frame {
    let (list, range, lent) = PLANS[turn % PLANS.len()];
    let mut blocks = vec![records_of_jobs(&jobs_of_list(list))];
    blocks.extend(lent.map(|length| random.filled(length)));
    Frame {
        head: GATE_PLAN,
        numbers: range.map(u16::from).to_vec(),
        blocks,
    }
}

/// The worked call of the gate's marker that has this turn.
pub fn worked_mark(random: &mut Random, turn: usize) -> Frame {
    MARKS[turn % MARKS.len()].input(random, GATE_MARK)
}
