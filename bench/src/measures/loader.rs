//! Measure g: configurations converted to kernel records and back, against the same algorithm in
//! Rust.

use crate::calls::{Answer, Case, Convert};
use crate::library;
use crate::lists::{self, Kind};
use crate::measures::{time_calls, Scale};
use crate::random::Random;
use crate::report::{ratio, Goal};
use crate::same::kernel;

const PRIORITIES: (u8, u8) = (1, 99);

/// A random list with a full configuration.
fn case(random: &mut Random) -> Case {
    let jobs = lists::mixed_list(random, Kind::WITHIN_PERIOD);
    let range = lists::range(random);
    let settings = lists::settings(random, &jobs, range, true);
    Case::mark(&jobs, range, &settings)
}

/// The case that hands in what an entry answers for a case.
fn converted(case: &Case, convert: Convert) -> Case {
    let answer = case.converted(PRIORITIES, convert);
    let size = case.configuration.len();
    Case {
        configuration: answer.configuration[..size].to_vec(),
        ..case.clone()
    }
}

/// One entry over the cases, whose answers are compared first.
fn compare(scale: &Scale, name: &str, cases: &[Case], ours: Convert, other: Convert) {
    for case in cases {
        let (mine, theirs) = (
            case.converted(PRIORITIES, ours),
            case.converted(PRIORITIES, other),
        );
        assert_eq!(mine, theirs, "conversions differ");
    }
    let call = |convert: Convert| {
        move |case: &Case, answer: &mut Answer| case.call_convert(PRIORITIES, convert, answer)
    };
    let times = time_calls(cases, scale.effort, call(ours), call(other));
    ratio(name, &times, "rust", Goal::AtMost(1.25));
}

pub fn run(scale: &Scale) {
    let random = &mut Random::of_measure(scale.seed, 13);
    let cases: Vec<Case> = (0..scale.hand_ins).map(|_| case(random)).collect();
    let back: Vec<Case> = cases
        .iter()
        .map(|case| converted(case, library::to_kernel))
        .collect();
    compare(
        scale,
        "g to_kernel",
        &cases,
        library::to_kernel,
        kernel::to_kernel,
    );
    compare(
        scale,
        "g from_kernel",
        &back,
        library::from_kernel,
        kernel::from_kernel,
    );
    for (case, kernel) in cases.iter().zip(&back) {
        let again = converted(kernel, library::from_kernel);
        assert_eq!(
            again.configuration, case.configuration,
            "not the same again"
        );
    }
}
