//! What the cases of the start gate must hold, and that within its limits they are those of the
//! mats.

use reference::configuration::ROUND_ROBIN;
use reference::entries::faults::Fault;
use reference::entries::{answer, faults_present, GATE_MARK, GATE_PLAN, MARK, PLAN};
use reference::frames::Frame;
use reference::generation::by_entry::Answered;
use reference::generation::gate_counts::SITUATIONS;
use reference::generation::{place_of_kind, Case, START_GATE};
use reference::jobs::records_of_jobs;

use crate::common::{jobs, Times};
use crate::minimums::summary;
use crate::{accepted, cases_of, stored_of_kind};

#[test]
fn both_entries_have_half_of_the_cases() {
    for entry in [GATE_PLAN, GATE_MARK] {
        assert_eq!(cases_of(&START_GATE, entry).count(), 450);
        let refused = 450 - accepted(&START_GATE, entry).count();
        assert!((200..=300).contains(&refused), "{refused} refused");
    }
}

/// The call of the mats that is given the same.
fn at_mats(input: &Frame) -> Frame {
    let entry = match input.head {
        GATE_PLAN => PLAN,
        _ => MARK,
    };
    Frame {
        head: entry,
        ..input.clone()
    }
}

#[test]
fn all_cases_but_those_with_15_are_those_of_the_mats() {
    let is_past = |case: &&Case| case.output.head == 15;
    let (past, within): (Vec<&Case>, Vec<&Case>) =
        stored_of_kind(&START_GATE).iter().partition(is_past);
    assert!(past.len() >= 200, "{} cases", past.len());
    for case in within {
        let output = answer(&at_mats(&case.input));
        assert_eq!(output.as_ref(), Some(&case.output), "{case:?}");
    }
    for case in past {
        let faults = faults_present(&at_mats(&case.input)).expect("the mats are given the same");
        let is_early = |fault: &Fault| (1..=6).contains(&fault.refusal.number());
        assert!(!faults.iter().any(is_early), "{case:?}");
    }
}

/// By the situation's place, how many cases of the gate's planner and of its marker are at least to
/// be in it.
const LEAST: [[usize; 2]; SITUATIONS.len()] = [
    [10, 25], // accepted, 1 job
    [60, 45], // accepted, 2 jobs
    [40, 30], // accepted, 3 jobs
    [40, 30], // accepted, 4 jobs
    [4, 2],   // accepted, quanta 1 to 1
    [60, 60], // accepted, highest quantum below 16
    [90, 80], // accepted, highest quantum 16
    [20, 20], // accepted, 4 jobs, highest quantum 16
    [25, 30], // 15 by the jobs alone
    [10, 10], // by 5 jobs, highest quantum 16
    [6, 6],   // by 6 or 7 jobs
    [4, 4],   // by 8 jobs
    [25, 40], // 15 by the highest quantum alone
    [5, 10],  // by 17, 4 jobs
    [12, 30], // by 17
    [5, 8],   // by 18 to 63
    [5, 5],   // by 64
    [20, 30], // 15 by both
    [60, 60], // 15, and nothing else
    [20, 12], // 1, past the limits
    [10, 6],  // 2, past the limits
    [10, 6],  // 3, past the limits
    [10, 6],  // 5, past the limits
    [12, 8],  // 6, past the limits
    [5, 4],   // 6, highest quantum 17 to 64
    [0, 8],   // 15 before 7
    [0, 8],   // 15 before 8
    [0, 8],   // 15 before 9
    [0, 8],   // 15 before 10
    [0, 8],   // 15 before 11
    [12, 8],  // 15 before 12
    [0, 6],   // 9 by a record's 17, quanta up to 16
    [0, 10],  // 15 by 17, a record has 17
    [10, 15], // 15 by 17, no record above 16
];

#[test]
fn minimums_of_situations_at_the_gate() {
    for (place, (name, _)) in SITUATIONS.iter().enumerate() {
        let cases = summary().gate.entries.map(|counts| counts[place]);
        let [plan, mark] = LEAST[place];
        let is_met = cases[0] >= plan && cases[1] >= mark;
        assert!(is_met, "{name}: {cases:?} cases");
    }
}

#[test]
fn every_highest_quantum_up_to_16_is_accepted() {
    for entry in [GATE_PLAN, GATE_MARK] {
        for highest in 1..=16 {
            let cases = accepted(&START_GATE, entry);
            let cases = cases.filter(|case| case.input.numbers[1] == highest);
            assert!(cases.count() > 0, "entry {entry}, up to {highest}");
        }
    }
}

#[test]
fn plans_of_the_gate_have_every_outcome() {
    let plans = &summary().gate_plans;
    assert!(plans.placed_alone >= 40, "{plans:?}");
    assert!(plans.placed_in_pairs >= 30, "{plans:?}");
    assert!(plans.placed_in_larger_layers >= 12, "{plans:?}");
    assert!(plans.stopped_short >= 12, "{plans:?}");
    assert!(plans.stopped_short_sharing >= 15, "{plans:?}");
    assert!(plans.nothing_placed >= 30, "{plans:?}");
    assert!(plans.with_shared_level >= 60, "{plans:?}");
    assert!(plans.with_longest_period >= 15, "{plans:?}");
}

/// Whether a level of the configuration that an accepted case is about is shared.
fn has_shared_level(case: &Case) -> bool {
    let (_, answered) = Answered::of_case(case).expect("the gate's cases are counted");
    let mut settings = answered.settings.iter();
    settings.any(|setting| setting.policy == ROUND_ROBIN)
}

#[test]
fn marks_of_the_gate_pass_and_fail_with_shared_levels_and_without() {
    for passes in [0, 1] {
        for is_shared in [false, true] {
            let cases = accepted(&START_GATE, GATE_MARK).filter(|case| {
                case.output.numbers == [passes] && has_shared_level(case) == is_shared
            });
            let cases = cases.count();
            assert!(cases >= 15, "{passes}, {is_shared}: {cases} cases");
        }
    }
}

#[test]
fn lists_of_the_gate_have_long_deadlines_and_delays() {
    let [.., plan, mark] = summary().long_deadlines.entries;
    for counts in [plan, mark] {
        assert!(counts.cases >= 70, "{counts:?}");
        assert!(counts.cases_shared >= 25, "{counts:?}");
        assert!(counts.closed_at_second >= 12, "{counts:?}");
        assert!(counts.closed_later >= 30, "{counts:?}");
        assert!(counts.closed_at_last >= 3, "{counts:?}");
    }
    let [.., plan, mark] = summary().delays.effects.entries;
    assert!(plan.jobs >= 80 && mark.jobs >= 140, "{plan:?} {mark:?}");
    assert!(
        mark.effects.iter().all(|count| *count >= 2),
        "{:?}",
        mark.effects
    );
    let kind = &summary().kinds[place_of_kind(&START_GATE)];
    let [.., mark] = kind.neighbours.entries;
    assert!(mark.jobs.iter().all(|count| *count >= 8), "{mark:?}");
}

/// A worked call: the entry, the lowest and the highest quantum, the jobs, the configuration if
/// there is one, and what the case answers.
type Worked = (
    u8,
    [u16; 2],
    &'static [Times],
    Option<&'static [[u8; 4]]>,
    u8,
);

const K2: &[Times] = &[(6, 8, 8), (5, 22, 22)];
const FOUR: &[Times] = &[(1, 100, 100); 4];
const FIVE: &[Times] = &[(1, 100, 100); 5];
const NINE: &[Times] = &[(1, 100, 100); 9];
const FIVE_WITH_COST_0: &[Times] = &[
    (1, 100, 100),
    (1, 100, 100),
    (1, 100, 100),
    (1, 100, 100),
    (0, 100, 100),
];
const KEY: Option<&[[u8; 4]]> = Some(&[[1, 2, 2, 3], [2, 2, 2, 1]]);
const WITH_17: Option<&[[u8; 4]]> = Some(&[[1, 1, 2, 17], [2, 1, 2, 1]]);
const FIVE_LEVELS: Option<&[[u8; 4]]> = Some(&[
    [1, 1, 1, 0],
    [2, 2, 1, 0],
    [3, 3, 1, 0],
    [4, 4, 1, 0],
    [5, 5, 1, 0],
]);

const WORKED: [Worked; 26] = [
    (GATE_PLAN, [1, 4], K2, None, 0),
    (GATE_PLAN, [1, 2], K2, None, 0),
    (GATE_PLAN, [1, 16], FOUR, None, 0),
    (GATE_PLAN, [1, 17], FOUR, None, 15),
    (GATE_PLAN, [1, 4], FIVE, None, 15),
    (GATE_PLAN, [1, 16], FIVE, None, 15),
    (GATE_PLAN, [1, 17], FIVE, None, 15),
    (GATE_PLAN, [1, 4], NINE, None, 1),
    (GATE_PLAN, [1, 17], NINE, None, 1),
    (GATE_PLAN, [1, 65], K2, None, 6),
    (GATE_PLAN, [0, 17], K2, None, 6),
    (GATE_PLAN, [17, 16], K2, None, 6),
    (GATE_PLAN, [18, 17], K2, None, 6),
    (GATE_PLAN, [1, 4], FIVE_WITH_COST_0, None, 5),
    (GATE_PLAN, [1, 17], FIVE_WITH_COST_0, None, 5),
    (GATE_MARK, [1, 4], K2, KEY, 0),
    (GATE_MARK, [1, 16], K2, KEY, 0),
    (GATE_MARK, [1, 16], K2, WITH_17, 9),
    (GATE_MARK, [1, 17], K2, WITH_17, 15),
    (GATE_MARK, [1, 4], FIVE, FIVE_LEVELS, 15),
    (GATE_MARK, [1, 16], FIVE, FIVE_LEVELS, 15),
    (GATE_MARK, [1, 4], FOUR, FIVE_LEVELS, 7),
    (GATE_MARK, [1, 65], K2, KEY, 6),
    (GATE_MARK, [0, 17], K2, KEY, 6),
    (GATE_MARK, [18, 17], K2, KEY, 6),
    (GATE_MARK, [1, 4], FIVE_WITH_COST_0, FIVE_LEVELS, 5),
];

#[test]
fn worked_calls_of_the_gate_are_drawn() {
    for (entry, range, times, settings, number) in WORKED {
        let block = records_of_jobs(&jobs(times));
        let mut cases = cases_of(&START_GATE, entry).filter(|case| {
            let Frame {
                numbers, blocks, ..
            } = &case.input;
            let has_settings = settings.is_none_or(|records| blocks[1] == records.concat());
            numbers[..] == range && blocks[0] == block && has_settings
        });
        let is_met = cases.any(|case| case.output.head == number);
        assert!(is_met, "entry {entry}: {range:?} {times:?}");
    }
}

/// The planner's exam lists among K1 to K9, with the highest quantum, the set placed and the count
/// of sets considered.
const EXAM_LISTS: [(&[Times], u16, [u16; 2]); 7] = [
    (&[(2, 5, 5)], 4, [1, 1]),
    (K2, 4, [3, 3]),
    (K2, 2, [0, 3]),
    (&[(1, 4, 4), (2, 6, 6), (3, 12, 12)], 4, [7, 3]),
    (&[(6, 8, 8), (5, 23, 23)], 4, [3, 2]),
    (&[(1, 1, 1), (1, 1, 1)], 4, [0, 3]),
    (&[(6, 8, 8), (5, 22, 22), (1, 100, 100)], 2, [4, 4]),
];

#[test]
fn the_exam_lists_are_among_the_gates_calls() {
    for (times, highest, answered) in EXAM_LISTS {
        let block = records_of_jobs(&jobs(times));
        let mut cases = accepted(&START_GATE, GATE_PLAN);
        let is_stored = cases.any(|case| {
            let Frame {
                numbers, blocks, ..
            } = &case.input;
            numbers[..] == [1, highest] && blocks[0] == block && case.output.numbers == answered
        });
        assert!(is_stored, "{times:?}");
    }
}
