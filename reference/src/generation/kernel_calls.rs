//! Calls that convert configurations into kernel records and back: accepted ones in pairs of which
//! each undoes the other, calls with faults, and worked ones.

use crate::configuration::setting_of_record;
use crate::entries::{answer, from_kernel, to_kernel, FROM_KERNEL, TO_KERNEL};
use crate::frames::Frame;
use crate::generation::call::{Call, Given, Parts};
use crate::generation::delay_calls::any_parts;
use crate::generation::job_calls::{call_with_job_faults, faults_in_turn, Asked};
use crate::generation::job_faults::with_one_bad_time;
use crate::generation::kernel_faults::{any_priorities, put_kernel_faults, with_too_few};
use crate::generation::kernel_worked::{worked_from_kernel, worked_to_kernel};
use crate::generation::random::Random;
use crate::generation::rounds::{row, row_by_turn, Kind, Row};
use crate::generation::setting_faults::put_setting_faults;
use crate::kernel::{bytes_of_kernel, kernel_of_setting, KernelPriority};

pub const KERNEL_RECORDS: Kind = Kind {
    name: "kernel records",
    cases: 900,
    round: &ROUND,
};

const ROUND: [Row; 8] = [
    row_by_turn(TO_KERNEL, 7, there),
    row_by_turn(FROM_KERNEL, 7, back),
    row(TO_KERNEL, 8, |random, turn| {
        let faults = faults_in_turn(&TO_KERNEL_REFUSALS, turn);
        kernel_call(random, &to_kernel::GIVEN, turn, faults)
    }),
    row(FROM_KERNEL, 8, |random, turn| {
        let faults = faults_in_turn(&FROM_KERNEL_REFUSALS, turn);
        kernel_call(random, &from_kernel::GIVEN, turn, faults)
    }),
    row(TO_KERNEL, 3, |random, turn| {
        let first = [13, 9, 13, 10, 13, 11][turn % 6];
        let faults = first_and_some_later(random, &TO_KERNEL_REFUSALS, first);
        kernel_call(random, &to_kernel::GIVEN, turn, faults)
    }),
    // No other call has 14, so its calls are the most.
    row(FROM_KERNEL, 6, |random, turn| {
        let first = [13, 14, 9, 14, 10, 14][turn % 6];
        let faults = first_and_some_later(random, &FROM_KERNEL_REFUSALS, first);
        kernel_call(random, &from_kernel::GIVEN, turn, faults)
    }),
    row(TO_KERNEL, 3, worked_to_kernel),
    row(FROM_KERNEL, 3, worked_from_kernel),
];

/// The refusals of both entries in the order in which they are sought.
const TO_KERNEL_REFUSALS: [u8; 12] = [1, 2, 3, 5, 6, 13, 7, 8, 9, 10, 11, 12];
const FROM_KERNEL_REFUSALS: [u8; 12] = [1, 2, 3, 5, 6, 13, 7, 8, 14, 9, 10, 12];

/// A refusal, and each later one once in four times.
fn first_and_some_later(random: &mut Random, refusals: &[u8], first: u8) -> Vec<u8> {
    let from_first = refusals.iter().skip_while(|refusal| **refusal != first);
    let mut faults: Vec<u8> = from_first.copied().collect();
    faults.retain(|fault| *fault == first || random.once_in(4));
    faults
}

/// A list with a configuration of any levels, full unless refusal 11 is wanted.
fn parts(random: &mut Random, asked: &Asked) -> Parts {
    let count = asked.job_count(random);
    any_parts(random, count, |random| asked.is_full(random, |_| true))
}

/// Puts kernel records in place of the settings of a call.
fn convert(call: &mut Call, highest: KernelPriority) {
    for record in &mut call.setting_records {
        *record = bytes_of_kernel(&kernel_of_setting(&setting_of_record(record), highest));
    }
}

/// The call of an entry with these faults.
fn kernel_call(random: &mut Random, given: &'static Given, turn: usize, faults: Vec<u8>) -> Frame {
    let asked = Asked {
        given,
        turn,
        faults,
    };
    let parts = parts(random, &asked);
    let mut call = call_with_job_faults(random, &asked, &parts, with_one_bad_time);
    let mut priorities = any_priorities(random, call.jobs);
    if given.entry == FROM_KERNEL {
        convert(&mut call, priorities.highest);
        put_kernel_faults(random, &mut call, priorities.highest, &asked.faults);
    } else {
        put_setting_faults(random, &mut call, &asked.faults);
    }
    if asked.faults.contains(&13) {
        priorities = with_too_few(random, priorities, call.jobs);
    }
    let mut input = call.into_input(random);
    let priorities = [priorities.lowest, priorities.highest];
    input
        .numbers
        .extend(priorities.map(|priority| u16::from(priority.0)));
    input
}

/// A call towards the kernel that is accepted.
fn there(random: &mut Random, turn: usize) -> Frame {
    kernel_call(random, &to_kernel::GIVEN, turn, Vec::new())
}

/// The call from the kernel that is given what the call towards it with the same turn writes, and
/// else the same. Of the two, each gives back what the other is given.
fn back(random: &mut Random, turn: usize) -> Frame {
    let mut input = there(random, turn);
    let output = answer(&input).expect("the call has its entry's parts");
    let configuration = &mut input.blocks[1];
    let kernel = &output.blocks[0][..configuration.len()];
    configuration.copy_from_slice(kernel);
    input.head = FROM_KERNEL;
    input
}
