//! What each entry is given in an input frame and answers in an output frame.

mod common;

use common::{block_of_jobs, delayed_jobs, job_block};
use reference::entries::{
    answer, BOUNDS, BREAKDOWN, EDIT, ENTRIES, FROM_KERNEL, GATE_MARK, GATE_PLAN, KEY, MARK, PLAN,
    READ_CONFIGURATION, READ_JOBS, SAME_BYTES, TO_KERNEL, WRITE_CONFIGURATION, WRITE_JOBS,
};
use reference::frames::Frame;

/// The passing configuration of the second worked list, its bounds, their breakdown, and its kernel
/// records for priorities up to 99.
const SETTINGS: [u8; 8] = [1, 2, 2, 3, 2, 2, 2, 1];
const BOUNDS_OF_JOBS: [u8; 4] = [0, 8, 0, 20];
const BROKEN_DOWN: [u8; 44] = [
    0, 1, 0, 0, 0, 6, 0, 0, 0, 2, 0, 0, 0, 0, 0, 0, 0, 0, 0, 0, 0, 0, // the first job
    0, 1, 0, 0, 0, 5, 0, 0, 0, 15, 0, 0, 0, 0, 0, 0, 0, 0, 0, 0, 0, 0, // the second job
];
const KERNEL: [u8; 8] = [1, 2, 98, 3, 2, 2, 98, 1];

/// The job block of the second worked list.
fn jobs() -> Vec<u8> {
    job_block(&[(6, 8, 8), (5, 22, 22)])
}

/// Records at the start of a table of so many bytes.
fn table(records: &[u8], length: usize) -> Vec<u8> {
    let mut table = records.to_vec();
    table.resize(length, 0);
    table
}

/// Bytes at the start of an output of so many 9s.
fn output(written: &[u8], length: usize) -> Vec<u8> {
    let mut output = written.to_vec();
    output.resize(length, 9);
    output
}

fn frame(head: u8, numbers: &[u16], blocks: Vec<Vec<u8>>) -> Frame {
    Frame {
        head,
        numbers: numbers.to_vec(),
        blocks,
    }
}

/// Input frames on the second worked list, range 1 to 4, priorities 1 to 99, for all entries in
/// order.
fn input_frames() -> [Frame; 15] {
    let (jobs, settings, range) = (jobs(), SETTINGS.to_vec(), [1, 4]);
    let (kernel, range_and_priorities) = (KERNEL.to_vec(), [1, 4, 1, 99]);
    let lent = output(&[], 20);
    let configured = vec![jobs.clone(), settings.clone(), lent.clone()];
    let planned = vec![jobs.clone(), lent.clone(), output(&[], 10)];
    let in_kernel = vec![jobs.clone(), kernel, lent.clone()];
    let broken_down = vec![jobs.clone(), settings.clone(), output(&[], 46)];
    [
        frame(READ_JOBS, &[], vec![jobs.clone()]),
        frame(WRITE_JOBS, &[2], vec![table(&jobs, 64), lent.clone()]),
        frame(
            READ_CONFIGURATION,
            &range,
            vec![jobs.clone(), settings.clone()],
        ),
        frame(
            WRITE_CONFIGURATION,
            &[1, 4, 2],
            vec![jobs.clone(), table(&settings, 32), lent.clone()],
        ),
        frame(BOUNDS, &range, configured.clone()),
        frame(MARK, &range, configured.clone()),
        frame(PLAN, &range, planned.clone()),
        frame(SAME_BYTES, &[], vec![settings.clone(), settings]),
        frame(EDIT, &[1, 7, 256, 9], vec![jobs.clone()]),
        frame(KEY, &range, vec![jobs.clone()]),
        frame(TO_KERNEL, &range_and_priorities, configured.clone()),
        frame(FROM_KERNEL, &range_and_priorities, in_kernel),
        frame(BREAKDOWN, &range, broken_down),
        frame(GATE_PLAN, &range, planned),
        frame(GATE_MARK, &range, configured),
    ]
}

/// The output frames of these input frames.
fn output_frames() -> [Frame; 15] {
    let mut edited = jobs();
    edited[10..].copy_from_slice(&[0, 7, 1, 0, 0, 9]);
    let planned = vec![output(&SETTINGS, 20), output(&BOUNDS_OF_JOBS, 10)];
    let text = b"1 2 2 3 8\n2 2 2 1 20\nplaced 2 of 2\n";
    [
        frame(0, &[2], vec![table(&jobs(), 64)]),
        frame(0, &[16], vec![output(&jobs(), 20)]),
        frame(0, &[2], vec![table(&SETTINGS, 32)]),
        frame(0, &[8], vec![output(&SETTINGS, 20)]),
        frame(0, &[], vec![output(&BOUNDS_OF_JOBS, 20)]),
        frame(0, &[1], vec![output(&BOUNDS_OF_JOBS, 20)]),
        frame(0, &[3, 3], planned.clone()),
        frame(0, &[1], vec![]),
        frame(0, &[], vec![edited]),
        frame(0, &[], vec![text.to_vec()]),
        frame(0, &[], vec![output(&KERNEL, 20)]),
        frame(0, &[], vec![output(&SETTINGS, 20)]),
        frame(0, &[], vec![output(&BROKEN_DOWN, 46)]),
        frame(0, &[3, 3], planned),
        frame(0, &[1], vec![output(&BOUNDS_OF_JOBS, 20)]),
    ]
}

#[test]
fn entries_have_the_numbers_1_to_15() {
    let numbers: Vec<u8> = ENTRIES.iter().map(|entry| entry.number).collect();
    assert_eq!(numbers, (1..=15).collect::<Vec<u8>>());
    assert_eq!(input_frames().map(|input| input.head), numbers[..]);
}

#[test]
fn accepted_calls() {
    for (input, expected) in input_frames().iter().zip(output_frames()) {
        assert_eq!(answer(input), Some(expected), "entry {}", input.head);
    }
}

#[test]
fn refused_calls_answer_no_numbers_and_leave_what_is_lent() {
    let with_first_job_twice = [&jobs()[..8], &jobs()[..8]].concat();
    for mut input in input_frames() {
        let entry = input.head;
        let before = input.blocks.clone();
        let expected = match entry {
            READ_JOBS => frame(3, &[], vec![table(&[], 64)]),
            READ_CONFIGURATION => frame(3, &[], vec![table(&[], 32)]),
            WRITE_JOBS => frame(3, &[], before[1..].to_vec()),
            WRITE_CONFIGURATION | BOUNDS | MARK | TO_KERNEL | FROM_KERNEL | BREAKDOWN
            | GATE_MARK => frame(3, &[], before[2..].to_vec()),
            PLAN | GATE_PLAN => frame(3, &[], before[1..].to_vec()),
            KEY => frame(0, &[], vec![b"refused 3\n".to_vec()]),
            _ => continue,
        };
        input.blocks[0][..16].copy_from_slice(&with_first_job_twice);
        assert_eq!(answer(&input), Some(expected), "entry {entry}");
    }
    let edit_past_the_end = frame(EDIT, &[2, 7, 256, 9], vec![jobs()]);
    assert_eq!(
        answer(&edit_past_the_end),
        Some(frame(4, &[], vec![jobs()]))
    );
}

#[test]
fn a_configuration_that_fails_and_blocks_that_differ_answer_0() {
    let rate_order = vec![1, 1, 1, 0, 2, 2, 1, 0];
    for entry in [MARK, GATE_MARK] {
        let blocks = vec![jobs(), rate_order.clone(), output(&[], 4)];
        let mark = frame(entry, &[1, 4], blocks);
        assert_eq!(answer(&mark), Some(frame(0, &[0], vec![vec![0, 6, 0, 0]])));
    }
    let other = frame(SAME_BYTES, &[], vec![jobs(), SETTINGS.to_vec()]);
    assert_eq!(answer(&other), Some(frame(0, &[0], vec![])));
}

#[test]
fn an_output_is_as_long_as_it_is_lent() {
    for (lent, refusal) in [(0, 12), (3, 12), (4, 0), (5, 0)] {
        for entry in [PLAN, GATE_PLAN] {
            let blocks = vec![jobs(), output(&[], 8), output(&[], lent)];
            let plan = frame(entry, &[1, 4], blocks);
            let answered = answer(&plan).expect("the frame is one of a planner");
            assert_eq!(answered.head, refusal);
            assert_eq!(answered.blocks[1].len(), lent);
        }
    }
}

#[test]
fn records_of_jobs_have_the_delay_in_their_second_byte() {
    let block = block_of_jobs(&delayed_jobs(&[((6, 8, 8), 0), ((5, 22, 22), 2)]));
    assert_eq!(block[9], 2);
    let [mut read, mut write, _, _, mut bounds, ..] = input_frames();
    for input in [&mut read, &mut write, &mut bounds] {
        input.blocks[0][9] = 2;
    }
    assert_eq!(answer(&read), Some(frame(0, &[2], vec![table(&block, 64)])));
    assert_eq!(
        answer(&write),
        Some(frame(0, &[16], vec![output(&block, 20)]))
    );
    let delayed = output(&[0, 8, 0, 22], 20);
    assert_eq!(answer(&bounds), Some(frame(0, &[], vec![delayed])));
    // The edit is refused, and the slice has its delay after it.
    let edit = frame(EDIT, &[0, 0, 0, 0], vec![block.clone()]);
    assert_eq!(answer(&edit), Some(frame(5, &[], vec![block])));
}

#[test]
fn frames_of_no_entry_have_no_answer() {
    for number in [0, 16, 255] {
        assert_eq!(answer(&frame(number, &[1, 4], vec![jobs()])), None);
    }
}

#[test]
fn frames_with_other_parts_than_the_entry_is_given_have_no_answer() {
    for input in input_frames() {
        let changes: [fn(&mut Frame); 4] = [
            |frame| frame.numbers.push(1),
            |frame| {
                frame
                    .numbers
                    .truncate(frame.numbers.len().saturating_sub(1))
            },
            |frame| frame.blocks.push(Vec::new()),
            |frame| frame.blocks.truncate(frame.blocks.len() - 1),
        ];
        for change in changes {
            let mut changed = input.clone();
            change(&mut changed);
            assert!(
                changed == input || answer(&changed).is_none(),
                "{changed:?}"
            );
        }
    }
}

#[test]
fn frames_with_parts_that_the_entry_cannot_be_given_have_no_answer() {
    let [_, write, read_configuration, write_configuration, bounds, mark, plan, _, edit, key, ..] =
        input_frames();
    let [.., to_kernel, from_kernel, breakdown, gate_plan, gate_mark] = input_frames();
    let ranged = [read_configuration, bounds, mark, plan, key.clone()];
    let further = [to_kernel, from_kernel, breakdown, gate_plan, gate_mark];
    for ranged in ranged.into_iter().chain(further) {
        for place in 0..ranged.numbers.len() {
            let mut changed = ranged.clone();
            changed.numbers[place] = 256;
            assert_eq!(answer(&changed), None);
        }
    }
    let other_range = frame(KEY, &[1, 5], key.blocks);
    assert_eq!(answer(&other_range), None);
    // Tables that are not whole, and a slice with a part of a record.
    for (input, block) in [(write, 0), (write_configuration, 1), (edit, 0)] {
        let mut changed = input.clone();
        changed.blocks[block].push(0);
        assert_eq!(answer(&changed), None);
    }
}
