//! What must hold of the answers of all stored cases.

use reference::breakdown::BREAKDOWN_BYTES;
use reference::configuration::{put_settings, SETTING_BYTES};
use reference::entries::{
    answer, BOUNDS, BREAKDOWN, EDIT, FROM_KERNEL, GATE_MARK, GATE_PLAN, KEY, MARK, PLAN,
    READ_CONFIGURATION, READ_JOBS, SAME_BYTES, TO_KERNEL, WRITE_CONFIGURATION, WRITE_JOBS,
};
use reference::frames::{frames_of_file, Frame};
use reference::generation::Case;
use reference::jobs::jobs_of_records;
use reference::kernel::KERNEL_BYTES;
use reference::key::text_of_plan;
use reference::planner::{plan_jobs_by, Rules, RULES};
use reference::refusal::{Refusal, REFUSALS};
use reference::response_time::{put_bounds, BoundRule, BOUND_BYTES};

use crate::{job_records, planned, stored};

#[test]
fn stored_frames_are_read_back_from_their_files() {
    let frame_of_case: [fn(&Case) -> Frame; 2] =
        [|case| case.input.clone(), |case| case.output.clone()];
    for frame_of_case in frame_of_case {
        let frames: Vec<Frame> = stored().iter().map(frame_of_case).collect();
        let bytes = frames.iter().map(|frame| frame.to_bytes().unwrap());
        let file = bytes.collect::<Vec<_>>().concat();
        assert_eq!(frames_of_file(&file), Ok(frames));
    }
}

#[test]
fn a_call_is_refused_for_the_first_fault_in_the_order_of_refusals() {
    for (number, case) in stored().iter().enumerate() {
        let faults = case.faults();
        let is_present = |refusal: &&Refusal| faults.iter().any(|fault| fault.refusal == **refusal);
        let expected = REFUSALS.iter().find(is_present);
        let expected = expected.map(|refusal| refusal.number());
        if case.input.head == KEY {
            let text = expected.map(|number| format!("refused {number}\n").into_bytes());
            let found = &case.output.blocks[0];
            let is_refused = found.starts_with(b"refused");
            let found = is_refused.then(|| found.clone());
            assert_eq!(found, text, "case {number}");
        } else {
            assert_eq!(case.output.head, expected.unwrap_or(0), "case {number}");
        }
    }
}

#[test]
fn bytes_past_the_need_stay_and_a_refusal_changes_nothing() {
    for (number, case) in stored().iter().enumerate() {
        let Case { input, output } = case;
        let jobs = job_records(case).len();
        let written = match (output.head, input.head) {
            (0, WRITE_JOBS | WRITE_CONFIGURATION) => vec![usize::from(output.numbers[0])],
            (0, BOUNDS | MARK | GATE_MARK) => vec![BOUND_BYTES * jobs],
            (0, PLAN | GATE_PLAN) => vec![SETTING_BYTES * jobs, BOUND_BYTES * jobs],
            (0, TO_KERNEL) => vec![KERNEL_BYTES * jobs],
            (0, FROM_KERNEL) => vec![SETTING_BYTES * jobs],
            (0, BREAKDOWN) => vec![BREAKDOWN_BYTES * jobs],
            (_, PLAN | GATE_PLAN) => vec![0, 0],
            (_, READ_JOBS | READ_CONFIGURATION | SAME_BYTES | EDIT | KEY) => continue,
            _ => vec![0],
        };
        // The outputs lent are the last blocks of the input frame and all of the output frame.
        let before = &input.blocks[input.blocks.len() - written.len()..];
        assert_eq!(output.blocks.len(), written.len(), "case {number}");
        for ((before, after), written) in before.iter().zip(&output.blocks).zip(written) {
            assert_eq!(before.len(), after.len(), "case {number}");
            assert_eq!(before[written..], after[written..], "case {number}");
        }
    }
}

#[test]
fn edits_keep_the_delays_of_all_jobs() {
    let mut kept = 0;
    for case in stored().iter().filter(|case| case.input.head == EDIT) {
        let after = jobs_of_records(&case.output.blocks[0]);
        let before = job_records(case);
        assert_eq!(before.len(), after.len());
        for (before, after) in before.iter().zip(&after) {
            assert_eq!(before.delay, after.delay);
            kept += usize::from(case.output.head == 0 && after.delay != 0);
        }
    }
    assert!(kept >= 100, "{kept} delays");
}

/// The accepted cases of the mats' planner and of the gate's, with their numbers.
fn plans() -> impl Iterator<Item = (usize, &'static Case)> {
    let is_plan =
        |case: &Case| matches!(case.input.head, PLAN | GATE_PLAN) && case.output.head == 0;
    let cases = stored().iter().enumerate();
    cases.filter(move |(_, case)| is_plan(case))
}

#[test]
fn the_planner_and_the_bounds_entry_agree() {
    let mut compared = 0;
    for (_, case) in plans() {
        let jobs = job_records(case).len();
        let settings = case.output.blocks[0][..SETTING_BYTES * jobs].to_vec();
        let bounds = case.output.blocks[1][..BOUND_BYTES * jobs].to_vec();
        let lent = vec![9; bounds.len()];
        let again = Frame {
            head: BOUNDS,
            numbers: case.input.numbers.clone(),
            blocks: vec![case.input.blocks[0].clone(), settings, lent],
        };
        let output = answer(&again).expect("the frame is one of the bounds entry");
        assert_eq!((output.head, &output.blocks[0]), (0, &bounds));
        compared += 1;
    }
    assert!(compared >= 500, "{compared} plans compared");
}

#[test]
fn the_count_of_sets_considered_is_below_two_to_the_power_of_the_jobs() {
    for (number, case) in plans() {
        let considered = case.output.numbers[1];
        assert!(considered < 1 << job_records(case).len(), "case {number}");
    }
}

#[test]
fn plans_and_keys_are_the_same_by_the_first_bound_alone() {
    let rules = Rules {
        bound: BoundRule::First,
        ..RULES
    };
    let mut compared = 0;
    for (number, case) in stored().iter().enumerate() {
        let Case { input, output } = case;
        let Some((jobs, range)) = planned(case) else {
            continue;
        };
        let plan = plan_jobs_by(&jobs, range, rules);
        let mut expected = output.clone();
        if input.head == KEY {
            expected.blocks = vec![text_of_plan(&plan).into_bytes()];
        } else {
            expected.numbers = vec![u16::from(plan.placed), plan.considered];
            put_settings(&plan.settings, &mut expected.blocks[0]);
            put_bounds(&plan.bounds, &mut expected.blocks[1]);
        }
        assert_eq!(expected, *output, "case {number}");
        compared += 1;
    }
    assert!(compared >= 1_000, "{compared} answers compared");
}
