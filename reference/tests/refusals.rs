//! Each refusal by an example at each entry that has it, and the order in which they are sought.
//! The conversions into kernel records and back have a file of their own, and so has the start gate.

mod common;

use common::{job_block, jobs, setting_block, SettingNumbers};
use reference::configuration::{setting_of_record, Setting};
use reference::jobs::{Job, MOST_JOBS};
use reference::{
    bounds, breakdown, edit, mark, plan, read_configuration, read_jobs, write_configuration,
    write_jobs, Refusal,
};

/// The bytes that every lent output holds before a call.
const LENT: u8 = 0xa5;

/// An accepted call on two jobs, to be changed by a test.
#[derive(Clone)]
struct Call {
    block: Vec<u8>,
    low: u8,
    high: u8,
    settings: Vec<u8>,
    output: usize,
}

fn accepted() -> Call {
    Call {
        block: job_block(&[(6, 8, 8), (5, 22, 22)]),
        low: 1,
        high: 4,
        settings: setting_block(&[[1, 2, 2, 3], [2, 2, 2, 1]]),
        output: 64,
    }
}

fn number<T>(answer: Result<T, Refusal>) -> u8 {
    answer.map_or_else(Refusal::number, |_| 0)
}

/// The refusals of reading jobs, reading the configuration, bounds, their breakdown, marking and
/// planning.
fn answers(call: &Call) -> [u8; 6] {
    let Call {
        block,
        low,
        high,
        settings,
        output,
    } = call;
    let (low, high) = (*low, *high);
    let mut lent = [vec![LENT; *output], vec![LENT; *output]];
    let before = lent.clone();
    let mut numbers = [0; 6];
    numbers[0] = number(read_jobs(block).0);
    numbers[1] = number(read_configuration(block, low, high, settings).0);
    numbers[2] = number(bounds(block, low, high, settings, &mut lent[0]));
    assert!(numbers[2] == 0 || lent == before);
    let before = lent.clone();
    numbers[3] = number(breakdown(block, low, high, settings, &mut lent[0]));
    assert!(numbers[3] == 0 || lent == before);
    let before = lent.clone();
    numbers[4] = number(mark(block, low, high, settings, &mut lent[0]));
    assert!(numbers[4] == 0 || lent == before);
    let before = lent.clone();
    let [first, second] = &mut lent;
    numbers[5] = number(plan(block, low, high, first, second));
    assert!(numbers[5] == 0 || lent == before);
    numbers
}

/// The answers after a change to the accepted call.
fn changed(change: impl Fn(&mut Call)) -> [u8; 6] {
    let mut call = accepted();
    change(&mut call);
    answers(&call)
}

#[test]
fn the_accepted_call_has_no_refusal() {
    assert_eq!(changed(|_| {}), [0; 6]);
}

#[test]
fn refusals_of_the_job_block() {
    assert_eq!(changed(|call| call.block.clear()), [1; 6]);
    assert_eq!(changed(|call| call.block.push(0)), [1; 6]);
    assert_eq!(changed(|call| call.block[8] = 0), [2; 6]);
    assert_eq!(changed(|call| call.block[9] = 1), [0; 6]);
    assert_eq!(changed(|call| call.block[9] = 255), [0; 6]);
    assert_eq!(
        changed(|call| (call.block[8], call.block[9]) = (0, 1)),
        [2; 6]
    );
    assert_eq!(changed(|call| call.block[8] = 1), [3; 6]);
    assert_eq!(changed(|call| call.block[3] = 0), [5; 6]);
    assert_eq!(changed(|call| call.block[3] = 9), [5; 6]);
    assert_eq!(changed(|call| call.block[5] = 5), [5; 6]);
    assert_eq!(changed(|call| call.block[7] = 9), [0; 6]);
    assert_eq!(changed(|call| call.block[6] = 0xff), [5; 6]);
    assert_eq!(changed(|call| call.block[12] = 0xff), [5; 6]);
}

#[test]
fn refusals_of_the_range() {
    for (low, high) in [(0, 4), (5, 4), (1, 65), (0, 0), (65, 65)] {
        let numbers = changed(|call| (call.low, call.high) = (low, high));
        assert_eq!(numbers, [0, 6, 6, 6, 6, 6]);
    }
}

#[test]
fn refusals_of_the_configuration() {
    let of_settings = |number| [0, number, number, number, number, 0];
    let set = |settings: [SettingNumbers; 2]| {
        changed(move |call| call.settings = setting_block(&settings))
    };
    assert_eq!(changed(|call| call.settings.clear()), of_settings(7));
    assert_eq!(changed(|call| call.settings.push(0)), of_settings(7));
    assert_eq!(set([[2, 2, 2, 3], [1, 2, 2, 1]]), of_settings(8));
    for record in [
        [2, 2, 3, 1],
        [2, 1, 0, 0],
        [2, 0, 0, 1],
        [2, 2, 1, 1],
        [2, 0, 1, 0],
        [2, 3, 1, 0],
        [2, 2, 2, 0],
        [2, 2, 2, 5],
        [2, 0, 2, 1],
        [2, 3, 2, 1],
    ] {
        assert_eq!(set([[1, 2, 2, 3], record]), of_settings(9));
    }
    assert_eq!(set([[1, 2, 1, 0], [2, 2, 1, 0]]), of_settings(10));
    assert_eq!(set([[1, 2, 2, 3], [2, 2, 1, 0]]), of_settings(10));
    assert_eq!(set([[1, 1, 2, 3], [2, 2, 2, 1]]), of_settings(10));
    assert_eq!(set([[1, 1, 2, 3], [2, 0, 0, 0]]), of_settings(10));
    assert_eq!(set([[1, 1, 1, 0], [2, 0, 0, 0]]), [0, 0, 0, 0, 11, 0]);
}

#[test]
fn refusals_of_outputs() {
    assert_eq!(changed(|call| call.output = 3), [0, 0, 12, 12, 12, 12]);
    assert_eq!(changed(|call| call.output = 4), [0, 0, 0, 12, 0, 12]);
    assert_eq!(changed(|call| call.output = 8), [0, 0, 0, 12, 0, 0]);
    assert_eq!(changed(|call| call.output = 43), [0, 0, 0, 12, 0, 0]);
    assert_eq!(changed(|call| call.output = 44), [0; 6]);
    let block = accepted().block;
    let (mut long, mut short) = ([LENT; 8], [LENT; 3]);
    assert_eq!(number(plan(&block, 1, 4, &mut long, &mut short)), 12);
    assert_eq!((long, short), ([LENT; 8], [LENT; 3]));
}

/// A job table that starts with these jobs.
fn job_table(times: &[common::Times]) -> [Job; MOST_JOBS] {
    let mut table = [Job::default(); MOST_JOBS];
    table[..times.len()].copy_from_slice(&jobs(times));
    table
}

#[test]
fn refusals_of_writing_jobs() {
    let write = |table: &[Job; MOST_JOBS], count, length| {
        let mut output = vec![LENT; length];
        let number = number(write_jobs(table, count, &mut output));
        assert!(number == 0 || output == vec![LENT; length]);
        number
    };
    let table = job_table(&[(6, 8, 8), (5, 22, 22)]);
    assert_eq!(write(&table, 2, 16), 0);
    assert_eq!(write(&table, 0, 16), 1);
    assert_eq!(write(&table, 9, 80), 1);
    assert_eq!(write(&table, 3, 80), 2);
    assert_eq!(write(&table, 2, 15), 12);
    let mut unordered = table;
    unordered[1].id = 1;
    assert_eq!(write(&unordered, 2, 0), 3);
    let mut delayed = table;
    delayed[0].delay = 255;
    assert_eq!(write(&delayed, 2, 16), 0);
    delayed[0].id = 0;
    assert_eq!(write(&delayed, 2, 16), 2);
    assert_eq!(write(&job_table(&[(6, 8, 8), (0, 22, 22)]), 2, 0), 5);
}

#[test]
fn refusals_of_writing_a_configuration() {
    let write = |call: &Call, count| {
        let mut table = [Setting::default(); MOST_JOBS];
        for (entry, record) in table.iter_mut().zip(call.settings.chunks(4)) {
            *entry = setting_of_record(record);
        }
        let mut output = vec![LENT; call.output];
        let (block, low, high) = (&call.block, call.low, call.high);
        let number = number(write_configuration(
            block,
            low,
            high,
            &table,
            count,
            &mut output,
        ));
        assert!(number == 0 || output == vec![LENT; call.output]);
        number
    };
    let mut call = accepted();
    assert_eq!(write(&call, 2), 0);
    for count in [0, 1, 3, 9, 255] {
        assert_eq!(write(&call, count), 7);
    }
    call.output = 7;
    assert_eq!(write(&call, 2), 12);
    call.settings[2] = 1;
    assert_eq!(write(&call, 2), 9);
    call.settings[3] = 0;
    assert_eq!(write(&call, 2), 10);
    call.settings[4] = 1;
    assert_eq!(write(&call, 2), 8);
    call.low = 0;
    assert_eq!(write(&call, 2), 6);
    call.block[3] = 0;
    assert_eq!(write(&call, 2), 5);
}

#[test]
fn refusals_of_an_edit() {
    let edit_of = |count: usize, place, cost, period, deadline| {
        let mut slice = jobs(&vec![(0, 7, 9); count]);
        let before = slice.clone();
        let number = number(edit(&mut slice, place, cost, period, deadline));
        assert!(number == 0 || slice == before);
        number
    };
    assert_eq!(edit_of(2, 1, 1, 1, 1), 0);
    for count in [0, 9, 10] {
        assert_eq!(edit_of(count, 10, 0, 0, 0), 1);
    }
    assert_eq!(edit_of(2, 2, 0, 0, 0), 4);
    assert_eq!(edit_of(2, 1, 0, 5, 5), 5);
    assert_eq!(edit_of(2, 1, 5, 5, 4), 5);
    assert_eq!(edit_of(2, 1, 5, 5, 6), 0);
    assert_eq!(edit_of(2, 1, 6, 5, 6), 5);
    assert_eq!(edit_of(2, 1, 5, 5, 60_000), 0);
    assert_eq!(edit_of(2, 1, 5, 5, 60_001), 5);
    assert_eq!(edit_of(2, 1, 5, 60_001, 6), 5);
}

#[test]
fn each_number_is_sought_through_all_records_before_the_next() {
    // The earlier record holds the later fault.
    let both = |first: [u8; 8], second: [u8; 8]| {
        changed(move |call| call.block = [first, second].concat())
    };
    assert_eq!(
        both([1, 0, 0, 0, 0, 8, 0, 8], [0, 1, 0, 5, 0, 9, 0, 9]),
        [2; 6]
    );
    assert_eq!(
        both([1, 0, 0, 0, 0, 8, 0, 8], [2, 1, 0, 5, 0, 9, 0, 9]),
        [5; 6]
    );
    assert_eq!(
        both([1, 0, 0, 0, 0, 8, 0, 8], [1, 0, 0, 5, 0, 9, 0, 9]),
        [3; 6]
    );
    assert_eq!(
        both([2, 0, 0, 1, 0, 8, 0, 8], [0, 0, 0, 5, 0, 9, 0, 9]),
        [2; 6]
    );
    let set = |first: SettingNumbers, second: SettingNumbers| {
        changed(move |call| call.settings = setting_block(&[first, second]))
    };
    assert_eq!(set([1, 2, 3, 3], [3, 2, 2, 1]), [0, 8, 8, 8, 8, 0]);
    assert_eq!(set([1, 0, 0, 0], [2, 2, 2, 5]), [0, 9, 9, 9, 9, 0]);
    assert_eq!(set([1, 0, 0, 0], [2, 2, 2, 4]), [0, 10, 10, 10, 10, 0]);
}

#[test]
fn the_job_block_is_judged_before_the_range_the_configuration_and_the_output() {
    let mut call = accepted();
    call.output = 0;
    assert_eq!(answers(&call), [0, 0, 12, 12, 12, 12]);
    call.settings = setting_block(&[[1, 0, 0, 0], [2, 2, 1, 0]]);
    assert_eq!(answers(&call), [0, 0, 12, 12, 11, 12]);
    call.settings.pop();
    assert_eq!(answers(&call), [0, 7, 7, 7, 7, 12]);
    call.high = 65;
    assert_eq!(answers(&call), [0, 6, 6, 6, 6, 6]);
    call.block[15] = 0;
    assert_eq!(answers(&call), [5; 6]);
    call.block.push(0);
    assert_eq!(answers(&call), [1; 6]);
}
