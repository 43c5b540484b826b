//! Measure h: bounds broken down, against the same algorithm in Rust and against the bounds alone.

use crate::calls::{Answer, Case};
use crate::library;
use crate::lists::{Kind, Kinds};
use crate::measures::same_algorithm::configurations;
use crate::measures::{time_calls, Scale};
use crate::random::Random;
use crate::report;
use crate::same::breakdown::{self, PARTS_SIZE};
use crate::same::marker::BOUND_SIZE;

/// The bound that the amounts of a record make.
fn bound_of(record: &[u8]) -> u16 {
    let amount = |bytes: &[u8]| {
        bytes
            .iter()
            .fold(0, |sum, byte| 256 * sum + u32::from(*byte))
    };
    let mut amounts = record[2..].chunks_exact(4).map(amount);
    let sum: u32 = amounts.by_ref().take(4).sum();
    (sum - amounts.sum::<u32>()) as u16
}

/// Checks that both sides give the same words and bytes for every case, and that the amounts make
/// the bounds.
fn check(cases: &[Case]) {
    for case in cases {
        let mine = case.broken_down(library::breakdown);
        let theirs = case.broken_down(breakdown::breakdown);
        assert_eq!(mine, theirs, "breakdowns differ");
        let bounds = case.marked(library::bounds).bounds;
        let records = mine.parts.chunks_exact(PARTS_SIZE);
        let pairs = records.zip(bounds.chunks_exact(BOUND_SIZE));
        for (record, bound) in pairs.take(case.count()) {
            assert_eq!(bound_of(record).to_be_bytes(), bound, "bounds differ");
        }
    }
}

/// The breakdown over lists of some kinds; the names of the lines end in some words.
fn compare(scale: &Scale, random: &mut Random, kinds: &Kinds, ending: &str) {
    let cases = configurations(random, kinds, scale.hand_ins, false);
    check(&cases);
    let ours = |case: &Case, answer: &mut Answer| case.call_breakdown(library::breakdown, answer);
    let rust = |case: &Case, answer: &mut Answer| case.call_breakdown(breakdown::breakdown, answer);
    let times = time_calls(&cases, scale.effort, ours, rust);
    report::within(&format!("h breakdown{ending}"), &times, "rust", None);
    let bounds = |case: &Case, answer: &mut Answer| case.call_mark(library::bounds, answer);
    let times = time_calls(&cases, scale.effort, ours, bounds);
    let name = format!("h breakdown beside bounds{ending}");
    report::within(&name, &times, "bounds", None);
}

pub fn run(scale: &Scale) {
    let random = &mut Random::of_measure(scale.seed, 14);
    compare(scale, random, Kind::WITHIN_PERIOD, "");
    let random = &mut Random::of_measure(scale.seed, 15);
    compare(scale, random, Kind::PAST_PERIOD, ", late lists");
    let random = &mut Random::of_measure(scale.seed, 16);
    compare(scale, random, Kind::WITH_DELAYS, ", delayed lists");
}
