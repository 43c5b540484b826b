//! What the refused cases of the later entries must hold, and outputs of every length.

use std::collections::BTreeSet;

use reference::entries::{BREAKDOWN, FROM_KERNEL, GATE_MARK, GATE_PLAN, TO_KERNEL};
use reference::generation::rounds::Kind;
use reference::generation::{Case, BREAKDOWNS, KERNEL_RECORDS, START_GATE};

use crate::{accepted, cases_of, job_records};

/// An entry: the kind of its cases, its number, its refusals in the order in which they are sought,
/// and its outputs, each by its place among the blocks and with its need for each job.
type Refused = (&'static Kind, u8, &'static [u8], &'static [(usize, usize)]);

const ENTRIES: [Refused; 5] = [
    (
        &KERNEL_RECORDS,
        TO_KERNEL,
        &[1, 2, 3, 5, 6, 13, 7, 8, 9, 10, 11, 12],
        &[(2, 4)],
    ),
    (
        &KERNEL_RECORDS,
        FROM_KERNEL,
        &[1, 2, 3, 5, 6, 13, 7, 8, 14, 9, 10, 12],
        &[(2, 4)],
    ),
    (
        &BREAKDOWNS,
        BREAKDOWN,
        &[1, 2, 3, 5, 6, 7, 8, 9, 10, 12],
        &[(2, 22)],
    ),
    (
        &START_GATE,
        GATE_PLAN,
        &[1, 2, 3, 5, 6, 15, 12],
        &[(1, 4), (2, 2)],
    ),
    (
        &START_GATE,
        GATE_MARK,
        &[1, 2, 3, 5, 6, 15, 7, 8, 9, 10, 11, 12],
        &[(2, 2)],
    ),
];

/// The numbers of the refusals that apply to a case.
fn refusals_present(case: &Case) -> BTreeSet<u8> {
    let faults = case.faults();
    faults.iter().map(|fault| fault.refusal.number()).collect()
}

#[test]
fn every_refusal_comes_alone_and_with_every_later_one() {
    for (kind, entry, refusals, _) in ENTRIES {
        for (place, first) in refusals.iter().enumerate() {
            let refused = cases_of(kind, entry).filter(|case| case.output.head == *first);
            let present: Vec<BTreeSet<u8>> = refused.map(refusals_present).collect();
            let is_alone = |faults: &BTreeSet<u8>| faults.len() == 1;
            assert!(present.iter().any(is_alone), "entry {entry}: {first}");
            for later in &refusals[place + 1..] {
                let has_both = present.iter().any(|faults| faults.contains(later));
                assert!(has_both, "entry {entry}: {first} before {later}");
            }
        }
        let is_known = |case: &Case| case.output.head == 0 || refusals.contains(&case.output.head);
        assert!(cases_of(kind, entry).all(is_known));
    }
}

/// Counts the lengths of an output, given by its place and its need for each job.
fn assert_every_length(kind: &'static Kind, entry: u8, (place, bytes_per_job): (usize, usize)) {
    let lent = |case: &Case| case.input.blocks[place].len();
    let need = |case: &Case| bytes_per_job * job_records(case).len();
    let exact = accepted(kind, entry).filter(|case| lent(case) == need(case));
    assert!(exact.count() >= 40);
    let longer = accepted(kind, entry).filter(|case| lent(case) > need(case));
    assert!(longer.count() >= 80);
    let one_more = accepted(kind, entry).filter(|case| lent(case) == need(case) + 1);
    assert!(one_more.count() >= 20);
    let short = || cases_of(kind, entry).filter(|case| case.output.head == 12);
    assert!(short().any(|case| lent(case) + 1 == need(case)));
    assert!(short().any(|case| lent(case) == 0));
}

#[test]
fn outputs_are_longer_than_the_need_exact_and_shorter() {
    for (kind, entry, _, outputs) in ENTRIES {
        for output in outputs {
            assert_every_length(kind, entry, *output);
        }
    }
}
