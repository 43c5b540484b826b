//! What the stored cases must hold, and what must hold of every case.

mod answers;
mod breakdown_readings;
mod breakdowns;
#[path = "../common/mod.rs"]
mod common;
mod gate;
mod gate_readings;
mod kernel_readings;
mod kernel_records;
mod long_blocks;
mod minimums;
mod periods;
mod readings;
mod refused;

use std::sync::OnceLock;

use reference::configuration::{settings_of_records, QuantumRange, Setting};
use reference::entries::{
    BOUNDS, EDIT, GATE_MARK, GATE_PLAN, KEY, MARK, PLAN, SAME_BYTES, WRITE_JOBS,
};
use reference::generation::rounds::Kind;
use reference::generation::{cases, cases_of_kind, entry_of_case, input_of_case, Case, KINDS};
use reference::jobs::{jobs_of_records, Job};
use reference::response_time::{bounds_of_records, BOUND_BYTES};

/// How many cases there are, with those that are stored first.
const STORED: usize = 11_100;

/// The stored cases, and those of the start gate after them.
fn stored() -> &'static [Case] {
    static CASES: OnceLock<Vec<Case>> = OnceLock::new();
    CASES.get_or_init(|| cases(1, STORED))
}

/// The stored cases of a kind.
fn stored_of_kind(kind: &Kind) -> &'static [Case] {
    &stored()[cases_of_kind(kind)]
}

/// The stored cases of an entry among those of a kind.
fn cases_of(kind: &Kind, entry: u8) -> impl Iterator<Item = &'static Case> {
    let cases = stored_of_kind(kind).iter();
    cases.filter(move |case| case.input.head == entry)
}

/// The accepted ones among them.
fn accepted(kind: &Kind, entry: u8) -> impl Iterator<Item = &'static Case> {
    cases_of(kind, entry).filter(|case| case.output.head == 0)
}

/// The records of jobs in a case's first block, which is empty of them in a test for same bytes.
fn job_records(case: &Case) -> Vec<Job> {
    match case.input.head {
        SAME_BYTES => Vec::new(),
        _ => jobs_of_records(&case.input.blocks[0]),
    }
}

/// The jobs and the range of an accepted case of the entries that are to find a configuration.
fn planned(case: &Case) -> Option<(Vec<Job>, QuantumRange)> {
    if !matches!(case.input.head, PLAN | KEY | GATE_PLAN) || !case.faults().is_empty() {
        return None;
    }
    let [lowest, highest] = [0, 1].map(|place| case.input.numbers[place] as u8);
    Some((job_records(case), QuantumRange { lowest, highest }))
}

/// The jobs that refusal 5 of a call is about. A table with a count above 8 has none, as its
/// entries past the list hold any bytes.
fn judged_jobs(case: &Case) -> Vec<Job> {
    match (case.input.head, case.input.numbers.as_slice()) {
        (WRITE_JOBS, [count]) if *count > 8 => Vec::new(),
        (EDIT, [_, cost, period, deadline]) => vec![Job {
            id: 0,
            delay: 0,
            cost: *cost,
            period: *period,
            deadline: *deadline,
        }],
        _ => case.jobs(),
    }
}

/// The jobs, the settings and the bounds of an accepted case of the entries that are given a
/// configuration and answer its bounds.
fn answered_bounds(case: &Case) -> Option<(Vec<Job>, Vec<Setting>, Vec<u16>)> {
    if case.output.head != 0 || !matches!(case.input.head, BOUNDS | MARK | GATE_MARK) {
        return None;
    }
    let jobs = job_records(case);
    let settings = settings_of_records(&case.input.blocks[1]);
    let bounds = bounds_of_records(&case.output.blocks[0][..BOUND_BYTES * jobs.len()]);
    Some((jobs, settings, bounds))
}

#[test]
fn the_stored_cases_are_all_kinds_once() {
    let cases: usize = KINDS.iter().map(|kind| kind.cases).sum();
    assert_eq!(cases, STORED);
    // Those of the start gate, the last kind, are drawn by the gate and in no file.
    let in_files = cases_of_kind(KINDS[KINDS.len() - 1]).start;
    let script = include_str!("../../stored");
    assert!(script.contains(&format!(" 1 {in_files} ")));
    let readme = include_str!("../../README.md");
    for kind in KINDS {
        let cases = cases_of_kind(kind);
        let row = format!("| {} to {} | {} |", cases.start, cases.end - 1, kind.name);
        assert!(readme.contains(&row), "{row}");
    }
}

#[test]
fn a_case_depends_on_its_seed_and_number_alone() {
    assert_eq!(input_of_case(1, 77), input_of_case(1, 77));
    assert_eq!(cases(1, 80)[..40], cases(1, 40)[..]);
    assert_ne!(cases(1, 40), cases(2, 40));
}

#[test]
fn a_case_asks_for_the_entry_of_its_row() {
    for (number, case) in stored().iter().enumerate() {
        assert_eq!(case.input.head, entry_of_case(number), "case {number}");
    }
}

#[test]
fn after_the_last_kind_the_first_comes_again_with_further_cases() {
    for kind in KINDS {
        let (row, turn) = kind.row_of_case(kind.cases);
        let first = cases_of_kind(kind).start + STORED;
        assert_eq!(entry_of_case(first), row.entry, "{}", kind.name);
        assert!(turn > 0, "{}", kind.name);
    }
    let again = cases(1, 2).into_iter().map(|case| case.input);
    let further = [STORED, STORED + 1].map(|case| input_of_case(1, case));
    assert!(again.zip(&further).all(|(one, other)| one != *other));
}
