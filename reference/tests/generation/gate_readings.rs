//! How many of the stored cases tell refusal 15 from that by other readings of the papers.

use reference::entries::{GATE_MARK, GATE_PLAN};
use reference::generation::gate_counts::GateCase;
use reference::generation::START_GATE;

use crate::cases_of;

/// The refusals of both entries in the order in which they are sought.
const PLAN_ORDER: [u8; 7] = [1, 2, 3, 5, 6, 15, 12];
const MARK_ORDER: [u8; 12] = [1, 2, 3, 5, 6, 15, 7, 8, 9, 10, 11, 12];

/// The cases of an entry.
fn gate_cases(entry: u8) -> impl Iterator<Item = GateCase> {
    let cases = cases_of(&START_GATE, entry);
    cases.map(|case| GateCase::of_case(case).expect("it is a case of the gate").1)
}

/// The order of an entry's refusals.
fn order(entry: u8) -> Vec<u8> {
    match entry {
        GATE_PLAN => PLAN_ORDER.to_vec(),
        _ => MARK_ORDER.to_vec(),
    }
}

/// The refusal of a case in an order, 0 for none, if 15 applies or not.
fn refusal(case: &GateCase, order: &[u8], is_past: bool) -> u8 {
    let applies = |number: &&u8| match number {
        15 => is_past,
        other => case.refusals.contains(other),
    };
    order.iter().find(applies).copied().unwrap_or(0)
}

/// A reading: its name, how many cases of each entry are to tell it, and whether 15 applies by it.
type Reading = (&'static str, [usize; 2], fn(&GateCase) -> bool);

/// Readings of what 15 is about that are not the right one.
const READINGS: [Reading; 14] = [
    ("never", [80, 100], |_| false),
    ("the jobs alone", [25, 40], |case| case.jobs > 4),
    ("the quantum alone", [25, 30], |case| case.highest > 16),
    ("both together", [50, 70], |case| {
        case.jobs > 4 && case.highest > 16
    }),
    ("from four jobs on", [40, 30], |case| {
        case.jobs >= 4 || case.highest > 16
    }),
    ("from six jobs on", [12, 15], |case| {
        case.jobs > 5 || case.highest > 16
    }),
    ("from 16 on", [90, 80], |case| {
        case.jobs > 4 || case.highest >= 16
    }),
    ("from 18 on", [12, 30], |case| {
        case.jobs > 4 || case.highest > 17
    }),
    ("from 32 on", [15, 30], |case| {
        case.jobs > 4 || case.highest >= 32
    }),
    ("the limit in bits, above 31", [12, 30], |case| {
        case.jobs > 7 || case.highest > 31
    }),
    ("the lowest quantum", [12, 25], |case| {
        case.jobs > 4 || case.lowest > 16
    }),
    ("more than 16 quanta", [8, 15], |case| {
        let quanta = i32::from(case.highest) - i32::from(case.lowest) + 1;
        case.jobs > 4 || quanta > 16
    }),
    ("the jobs or a record's quantum", [25, 25], |case| {
        let mut settings = case.settings.iter();
        case.jobs > 4 || settings.any(|setting| setting.quantum > 16)
    }),
    ("the highest or a record's quantum", [0, 5], |case| {
        let mut settings = case.settings.iter();
        let has_long = settings.any(|setting| setting.quantum > 16);
        case.jobs > 4 || case.highest > 16 || has_long
    }),
];

#[test]
fn the_right_reading_is_that_of_all_cases() {
    for entry in [GATE_PLAN, GATE_MARK] {
        for case in gate_cases(entry) {
            let is_past = case.jobs > 4 || case.highest > 16;
            assert_eq!(is_past, case.refusals.contains(&15));
            assert_eq!(refusal(&case, &order(entry), is_past), case.answer);
        }
    }
}

#[test]
fn some_refusals_differ_by_other_readings_of_the_limits() {
    for (name, least, is_past) in READINGS {
        for (entry, least) in [GATE_PLAN, GATE_MARK].into_iter().zip(least) {
            let order = order(entry);
            let differs = |case: &GateCase| refusal(case, &order, is_past(case)) != case.answer;
            let differing = gate_cases(entry).filter(differs).count();
            assert!(differing >= least, "{name}, {entry}: {differing} cases");
        }
    }
}

/// The order with 15 at another place.
fn with_15_at(order: &[u8], place: usize) -> Vec<u8> {
    let mut other: Vec<u8> = order.to_vec();
    other.retain(|number| *number != 15);
    other.insert(place, 15);
    other
}

#[test]
fn some_refusals_differ_with_15_at_every_other_place() {
    for (entry, least) in [(GATE_PLAN, 10), (GATE_MARK, 5)] {
        let order = order(entry);
        let right = order.iter().position(|number| *number == 15);
        let others = (0..order.len()).filter(|place| Some(*place) != right);
        for place in others {
            let other = with_15_at(&order, place);
            let differs = |case: &GateCase| {
                let is_past = case.refusals.contains(&15);
                refusal(case, &other, is_past) != case.answer
            };
            let differing = gate_cases(entry).filter(differs).count();
            assert!(differing >= least, "{other:?}: {differing} cases");
        }
    }
}
