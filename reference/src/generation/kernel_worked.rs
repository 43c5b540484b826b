//! Worked calls that convert configurations into kernel records and back: the second exam list's
//! key, the edges of the priorities, each refusal alone, and records at the edges of refusals.

use crate::entries::{FROM_KERNEL, TO_KERNEL};
use crate::frames::Frame;
use crate::generation::random::Random;
use crate::generation::worked::{
    self, with_quanta, List, Worked, COST_0, EIGHT, FALLING, ID_0, KEY, NINE, NONE, ONE, SAME_ID,
    TWO,
};

/// A worked call with the exam lists' range of quanta.
const fn worked(
    jobs: List,
    priorities: [u8; 2],
    records: &'static [[u8; 4]],
    lent: usize,
) -> Worked {
    Worked {
        priorities: Some(priorities),
        ..worked::worked(jobs, records, lent)
    }
}

/// A level for each of eight jobs, the first job on the first level.
const RISING: &[[u8; 4]] = &[
    [1, 1, 1, 0],
    [2, 2, 1, 0],
    [3, 3, 1, 0],
    [4, 4, 1, 0],
    [5, 5, 1, 0],
    [6, 6, 1, 0],
    [7, 7, 1, 0],
    [8, 8, 1, 0],
];

/// The calls towards the kernel.
const TO_KERNEL_CALLS: [Worked; 36] = [
    worked(TWO, [1, 99], KEY, 8),
    worked(TWO, [1, 99], KEY, 11),
    worked(TWO, [1, 99], KEY, 7),
    worked(TWO, [1, 99], KEY, 0),
    worked(TWO, [1, 99], &[[1, 1, 1, 0], [2, 2, 1, 0]], 8),
    worked(TWO, [1, 99], &[[1, 2, 1, 0], [2, 1, 1, 0]], 8),
    worked(TWO, [0, 255], KEY, 8),
    worked(TWO, [41, 42], KEY, 8),
    worked(EIGHT, [0, 7], RISING, 32),
    worked(EIGHT, [0, 7], FALLING, 40),
    worked(EIGHT, [0, 255], RISING, 32),
    worked(EIGHT, [248, 255], FALLING, 32),
    worked(ONE, [0, 0], &[[1, 1, 1, 0]], 4),
    worked(ONE, [77, 77], &[[1, 1, 1, 0]], 5),
    worked(ONE, [255, 255], &[[1, 1, 1, 0]], 4),
    // Too few priorities.
    worked(ONE, [78, 77], &[[1, 1, 1, 0]], 4),
    worked(TWO, [42, 42], KEY, 8),
    worked(TWO, [99, 1], KEY, 8),
    worked(TWO, [255, 0], KEY, 8),
    worked(EIGHT, [1, 7], RISING, 32),
    worked(EIGHT, [249, 255], FALLING, 32),
    // A level above the number of jobs, other shapes, and kernel records.
    worked(TWO, [1, 99], &[[1, 1, 1, 0], [2, 3, 1, 0]], 8),
    worked(TWO, [1, 99], &[[1, 2, 2, 3], [2, 2, 2, 5]], 8),
    worked(TWO, [1, 99], KERNEL_KEY, 8),
    // Levels shared by policy 1 jobs, and a policy 2 job alone with none placed beside it.
    worked(TWO, [1, 99], &[[1, 1, 1, 0], [2, 1, 1, 0]], 8),
    worked(TWO, [1, 99], &[[1, 1, 2, 3], [2, 0, 0, 0]], 8),
    // Jobs that are not placed.
    worked(TWO, [1, 99], &[[1, 1, 1, 0], [2, 0, 0, 0]], 8),
    worked(TWO, [1, 99], &[[1, 0, 0, 0], [2, 0, 0, 0]], 7),
    // Faults of the jobs and of the quanta.
    worked(NONE, [1, 99], &[], 0),
    worked(NINE, [1, 99], &[[2, 2, 2, 3], [1, 2, 2, 1]], 8),
    worked(ID_0, [1, 99], &[[0, 2, 2, 3], [2, 2, 2, 1]], 8),
    worked(SAME_ID, [1, 99], &[[1, 2, 2, 3], [1, 2, 2, 1]], 8),
    worked(COST_0, [1, 99], KEY, 8),
    with_quanta(0, 4, worked(TWO, [1, 99], KEY, 8)),
    with_quanta(1, 65, worked(TWO, [1, 99], KEY, 8)),
    with_quanta(0, 4, worked(TWO, [99, 1], KEY, 8)),
];

/// The second exam list's key as kernel records for priorities up to 99: id, policy, priority and
/// quantum.
const KERNEL_KEY: &[[u8; 4]] = &[[1, 2, 98, 3], [2, 2, 98, 1]];

/// A priority for each of eight jobs, up to 7, the first job with the highest.
const DOWN_TO_0: &[[u8; 4]] = &[
    [1, 1, 7, 0],
    [2, 1, 6, 0],
    [3, 1, 5, 0],
    [4, 1, 4, 0],
    [5, 1, 3, 0],
    [6, 1, 2, 0],
    [7, 1, 1, 0],
    [8, 1, 0, 0],
];

/// Four layers of eight jobs with priorities up to 255, the first job in the lowest layer.
const UP_TO_255: &[[u8; 4]] = &[
    [1, 2, 248, 1],
    [2, 2, 248, 4],
    [3, 1, 251, 0],
    [4, 2, 252, 2],
    [5, 2, 252, 3],
    [6, 2, 252, 1],
    [7, 2, 255, 4],
    [8, 2, 255, 4],
];

/// The calls from the kernel.
const FROM_KERNEL_CALLS: [Worked; 48] = [
    worked(TWO, [1, 99], KERNEL_KEY, 8),
    worked(TWO, [1, 99], KERNEL_KEY, 11),
    worked(TWO, [1, 99], KERNEL_KEY, 7),
    worked(TWO, [1, 99], KERNEL_KEY, 0),
    worked(TWO, [1, 99], &[[1, 1, 99, 0], [2, 1, 98, 0]], 8),
    worked(TWO, [1, 99], &[[1, 1, 98, 0], [2, 1, 99, 0]], 8),
    worked(TWO, [0, 255], &[[1, 2, 254, 3], [2, 2, 254, 1]], 8),
    worked(TWO, [41, 42], &[[1, 2, 41, 3], [2, 2, 41, 1]], 8),
    worked(EIGHT, [0, 7], DOWN_TO_0, 32),
    worked(EIGHT, [0, 255], UP_TO_255, 40),
    worked(EIGHT, [248, 255], UP_TO_255, 32),
    worked(ONE, [0, 0], &[[1, 1, 0, 0]], 4),
    worked(ONE, [255, 255], &[[1, 1, 255, 0]], 4),
    // Too few priorities.
    worked(ONE, [78, 77], &[[1, 1, 77, 0]], 4),
    worked(TWO, [42, 42], &[[1, 2, 42, 3], [2, 2, 42, 1]], 8),
    worked(TWO, [99, 1], &[[1, 2, 0, 3], [2, 2, 0, 1]], 8),
    worked(TWO, [255, 0], &[[1, 2, 0, 3], [2, 2, 0, 1]], 8),
    worked(EIGHT, [1, 7], DOWN_TO_0, 32),
    worked(EIGHT, [249, 255], UP_TO_255, 32),
    // A priority below the top values and one above them.
    worked(TWO, [1, 99], &[[1, 1, 99, 0], [2, 1, 97, 0]], 8),
    worked(TWO, [1, 99], &[[1, 1, 100, 0], [2, 1, 99, 0]], 8),
    worked(TWO, [1, 99], &[[1, 1, 99, 0], [2, 7, 97, 0]], 8),
    worked(TWO, [1, 99], &[[1, 1, 97, 0], [2, 0, 0, 0]], 8),
    worked(TWO, [1, 99], &[[1, 0, 0, 0], [2, 1, 97, 0]], 8),
    worked(TWO, [0, 1], &[[1, 1, 1, 0], [2, 1, 255, 0]], 8),
    worked(TWO, [0, 255], &[[1, 1, 255, 0], [2, 1, 0, 0]], 8),
    // Policy 0 with a priority outside the top values and inside them, and other shapes.
    worked(TWO, [1, 99], &[[1, 1, 99, 0], [2, 0, 0, 0]], 8),
    worked(TWO, [1, 99], &[[1, 1, 99, 0], [2, 0, 98, 0]], 8),
    worked(TWO, [0, 1], &[[1, 1, 1, 0], [2, 0, 0, 0]], 8),
    worked(TWO, [1, 99], &[[1, 0, 0, 0], [2, 0, 0, 0]], 8),
    worked(TWO, [1, 99], &[[1, 1, 99, 0], [2, 7, 98, 0]], 8),
    worked(TWO, [1, 99], &[[1, 1, 99, 0], [2, 1, 98, 1]], 8),
    worked(TWO, [1, 99], &[[1, 2, 98, 0], [2, 2, 98, 1]], 8),
    worked(TWO, [1, 99], &[[1, 2, 98, 4], [2, 2, 98, 5]], 8),
    // Priorities shared by policy 1 jobs, and policy 2 jobs alone with theirs.
    worked(TWO, [1, 99], &[[1, 1, 99, 0], [2, 1, 99, 0]], 8),
    worked(TWO, [1, 99], &[[1, 2, 98, 3], [2, 1, 98, 0]], 8),
    worked(TWO, [1, 99], &[[1, 2, 99, 3], [2, 2, 98, 1]], 8),
    worked(ONE, [1, 99], &[[1, 2, 99, 3]], 4),
    // Another order of ids, and configuration records.
    worked(TWO, [1, 99], &[[2, 1, 99, 0], [1, 1, 97, 0]], 8),
    worked(TWO, [1, 99], KEY, 8),
    // Faults of the jobs and of the quanta.
    worked(NONE, [1, 99], &[], 0),
    worked(NINE, [1, 99], &[[2, 2, 98, 3], [1, 2, 98, 1]], 8),
    worked(ID_0, [1, 99], &[[0, 2, 98, 3], [2, 2, 98, 1]], 8),
    worked(SAME_ID, [1, 99], &[[1, 2, 98, 3], [1, 2, 98, 1]], 8),
    worked(COST_0, [1, 99], KERNEL_KEY, 8),
    with_quanta(0, 4, worked(TWO, [1, 99], KERNEL_KEY, 8)),
    with_quanta(1, 65, worked(TWO, [1, 99], KERNEL_KEY, 8)),
    with_quanta(0, 4, worked(TWO, [99, 1], KERNEL_KEY, 8)),
];

/// The worked call towards the kernel that has this turn.
pub fn worked_to_kernel(random: &mut Random, turn: usize) -> Frame {
    TO_KERNEL_CALLS[turn % TO_KERNEL_CALLS.len()].input(random, TO_KERNEL)
}

/// The worked call from the kernel that has this turn.
pub fn worked_from_kernel(random: &mut Random, turn: usize) -> Frame {
    FROM_KERNEL_CALLS[turn % FROM_KERNEL_CALLS.len()].input(random, FROM_KERNEL)
}
