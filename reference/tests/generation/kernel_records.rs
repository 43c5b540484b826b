//! What the cases of kernel records must hold: both ways of each pair, and the edges of the
//! priorities.

use std::collections::BTreeSet;

use reference::entries::{FROM_KERNEL, TO_KERNEL};
use reference::generation::{Case, KERNEL_RECORDS};

use crate::job_records;

/// The cases of an entry.
fn cases_of(entry: u8) -> impl Iterator<Item = &'static Case> {
    crate::cases_of(&KERNEL_RECORDS, entry)
}

/// The accepted cases of an entry.
fn accepted(entry: u8) -> impl Iterator<Item = &'static Case> {
    crate::accepted(&KERNEL_RECORDS, entry)
}

/// The lowest and the highest priority of a case.
fn priorities(case: &Case) -> [u16; 2] {
    [case.input.numbers[2], case.input.numbers[3]]
}

/// What an accepted case writes, without the bytes past the need.
fn written(case: &Case) -> &[u8] {
    &case.output.blocks[0][..case.input.blocks[1].len()]
}

/// The configuration of an accepted case, which the one entry is given and the other writes.
fn configuration(case: &Case) -> &[u8] {
    match case.input.head {
        TO_KERNEL => &case.input.blocks[1],
        _ => written(case),
    }
}

/// The kernel records of an accepted case, which the one entry writes and the other is given.
fn kernel(case: &Case) -> &[u8] {
    match case.input.head {
        TO_KERNEL => written(case),
        _ => &case.input.blocks[1],
    }
}

/// The levels of an accepted case, in the order of the jobs.
fn levels(case: &Case) -> Vec<u8> {
    let records = configuration(case).chunks(4);
    records.map(|record| record[1]).collect()
}

#[test]
fn both_ways_of_a_conversion_are_stored() {
    let undoes = |one: &Case, other: &Case| {
        one.input.numbers == other.input.numbers
            && one.input.blocks[0] == other.input.blocks[0]
            && one.input.blocks[1] == written(other)
            && other.input.blocks[1] == written(one)
    };
    let is_undone = |case: &&Case| accepted(FROM_KERNEL).any(|other| undoes(case, other));
    let pairs: Vec<&Case> = accepted(TO_KERNEL).filter(is_undone).collect();
    assert!(pairs.len() >= 140, "{} pairs", pairs.len());
    for jobs in 1..=8 {
        let of_jobs = pairs.iter().filter(|case| job_records(case).len() == jobs);
        assert!(of_jobs.count() >= 10, "pairs of {jobs} jobs");
    }
}

#[test]
fn the_smaller_level_has_the_greater_priority_in_every_case() {
    for case in accepted(TO_KERNEL).chain(accepted(FROM_KERNEL)) {
        let of_job = || configuration(case).chunks(4).zip(kernel(case).chunks(4));
        for (setting, record) in of_job() {
            assert_eq!(
                [setting[0], setting[2], setting[3]],
                [record[0], record[1], record[3]]
            );
            let sum = u16::from(setting[1]) + u16::from(record[2]);
            assert_eq!(sum, priorities(case)[1] + 1);
            for (other_setting, other_record) in of_job() {
                assert_eq!(setting[1] < other_setting[1], record[2] > other_record[2]);
            }
        }
    }
}

#[test]
fn levels_are_shared_and_left_out() {
    for entry in [TO_KERNEL, FROM_KERNEL] {
        let (mut shared, mut left_out, mut last) = (0, 0, 0);
        for levels in accepted(entry).map(levels) {
            let distinct: BTreeSet<u8> = levels.iter().copied().collect();
            let largest = levels.iter().copied().max().unwrap_or(0);
            shared += usize::from(distinct.len() < levels.len());
            left_out += usize::from(distinct.len() < usize::from(largest));
            last += usize::from(usize::from(largest) == levels.len());
        }
        assert!(shared >= 80, "{shared} cases");
        assert!(left_out >= 60, "{left_out} cases");
        assert!(last >= 40, "{last} cases");
    }
}

/// How many values the priorities of a case span, 0 if the lowest is above the highest.
fn values(case: &Case) -> usize {
    let [lowest, highest] = priorities(case);
    (lowest..=highest).count()
}

/// Whether a kernel record of an accepted case has a priority.
fn has_priority(case: &Case, priority: u8) -> bool {
    let mut records = kernel(case).chunks(4);
    records.any(|record| record[2] == priority)
}

/// An edge of the priorities: its name, how many cases of each entry are to be at it, and whether
/// an accepted case is.
type Edge = (&'static str, usize, fn(&Case) -> bool);

const EDGES: [Edge; 7] = [
    ("0 to 255", 10, |case| priorities(case) == [0, 255]),
    ("1 to 99", 10, |case| priorities(case) == [1, 99]),
    ("the lowest is the highest", 5, |case| values(case) == 1),
    ("as many values as jobs", 40, |case| {
        values(case) == job_records(case).len()
    }),
    ("priority 0", 15, |case| has_priority(case, 0)),
    ("priority 255", 15, |case| has_priority(case, 255)),
    ("priority 0 beside a highest of 7", 1, |case| {
        priorities(case) == [0, 7] && job_records(case).len() == 8 && has_priority(case, 0)
    }),
];

#[test]
fn accepted_priorities_reach_every_edge() {
    for entry in [TO_KERNEL, FROM_KERNEL] {
        for (name, least, is_met) in EDGES {
            let cases = accepted(entry).filter(|case| is_met(case)).count();
            assert!(cases >= least, "entry {entry}, {name}: {cases} cases");
        }
    }
}

#[test]
fn refused_priorities_are_one_too_few_and_in_the_wrong_order() {
    for entry in [TO_KERNEL, FROM_KERNEL] {
        let refused = || cases_of(entry).filter(|case| case.output.head == 13);
        let one_too_few = refused().filter(|case| {
            let values = values(case);
            values > 0 && values + 1 == job_records(case).len()
        });
        assert!(one_too_few.count() >= 5);
        let wrong_order = refused().filter(|case| values(case) == 0);
        assert!(wrong_order.count() >= 10);
    }
}

/// Records of two jobs with ids 1 and 2 and quanta from 1 to 4, and what the case answers.
type Worked = (u8, [u16; 2], [[u8; 4]; 2], u8);

const WORKED: [Worked; 17] = [
    (TO_KERNEL, [42, 42], [[1, 2, 2, 3], [2, 2, 2, 1]], 13),
    (TO_KERNEL, [99, 1], [[1, 2, 2, 3], [2, 2, 2, 1]], 13),
    (TO_KERNEL, [1, 99], [[1, 1, 2, 3], [2, 0, 0, 0]], 10),
    (TO_KERNEL, [1, 99], [[1, 1, 1, 0], [2, 0, 0, 0]], 11),
    (FROM_KERNEL, [42, 42], [[1, 2, 42, 3], [2, 2, 42, 1]], 13),
    (FROM_KERNEL, [99, 1], [[1, 2, 0, 3], [2, 2, 0, 1]], 13),
    (FROM_KERNEL, [1, 99], [[2, 1, 99, 0], [1, 1, 97, 0]], 8),
    (FROM_KERNEL, [1, 99], [[1, 1, 99, 0], [2, 0, 0, 0]], 9),
    (FROM_KERNEL, [1, 99], [[1, 0, 0, 0], [2, 0, 0, 0]], 9),
    (FROM_KERNEL, [0, 1], [[1, 1, 1, 0], [2, 0, 0, 0]], 9),
    (FROM_KERNEL, [1, 99], [[1, 1, 97, 0], [2, 0, 0, 0]], 14),
    (FROM_KERNEL, [1, 99], [[1, 0, 0, 0], [2, 1, 97, 0]], 14),
    (FROM_KERNEL, [1, 99], [[1, 1, 99, 0], [2, 7, 97, 0]], 14),
    (FROM_KERNEL, [1, 99], [[1, 1, 99, 0], [2, 1, 97, 0]], 14),
    (FROM_KERNEL, [1, 99], [[1, 1, 100, 0], [2, 1, 99, 0]], 14),
    (FROM_KERNEL, [1, 99], [[1, 2, 99, 3], [2, 2, 98, 1]], 10),
    (FROM_KERNEL, [1, 99], [[1, 2, 98, 3], [2, 1, 98, 0]], 10),
];

/// Whether a case has these priorities and records.
fn has(case: &Case, priorities: [u16; 2], records: [[u8; 4]; 2]) -> bool {
    let [lowest, highest] = priorities;
    case.input.numbers == [1, 4, lowest, highest] && case.input.blocks[1] == records.concat()
}

#[test]
fn worked_calls_are_stored() {
    for (entry, priorities, records, number) in WORKED {
        let mut cases = cases_of(entry).filter(|case| has(case, priorities, records));
        let is_met = cases.any(|case| case.output.head == number);
        assert!(is_met, "{priorities:?} {records:?}");
    }
    let (key, kernel_key) = ([[1, 2, 2, 3], [2, 2, 2, 1]], [[1, 2, 98, 3], [2, 2, 98, 1]]);
    for (entry, given, expected) in [(TO_KERNEL, key, kernel_key), (FROM_KERNEL, kernel_key, key)] {
        let mut cases = accepted(entry).filter(|case| has(case, [1, 99], given));
        assert!(cases.any(|case| written(case) == expected.concat()));
    }
}
