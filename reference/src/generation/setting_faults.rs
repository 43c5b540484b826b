//! Faults put into the range, the configuration and the outputs of a call: refusals 6 to 10 and 12.
//! Refusal 11 needs none, as a configuration with a job not placed has it from the start; it only
//! moves the others to later records.

use crate::configuration::{FIFO, LONGEST_QUANTUM, NOT_PLACED, ROUND_ROBIN, SETTING_BYTES};
use crate::generation::call::Call;
use crate::generation::job_faults::{broken_length, fault_records, faults_among};
use crate::generation::random::Random;
use crate::jobs::MOST_JOBS;

/// The places of a setting's numbers in its record.
const ID: usize = 0;
const LEVEL: usize = 1;
const POLICY: usize = 2;
pub const QUANTUM: usize = 3;

/// Puts the faults among 6 to 10 and 12 into a call.
pub fn put_setting_faults(random: &mut Random, call: &mut Call, faults: &[u8]) {
    put_faults(random, call, faults, &[8, 9, 10, 11], put_record_fault);
}

/// Puts one of the faults 8 to 10 into a record.
fn put_record_fault(random: &mut Random, call: &mut Call, fault: u8, record: usize) {
    match fault {
        8 => put_identity_fault(random, call, record),
        9 => put_shape_fault(random, call, record),
        10 => put_sharing_fault(random, call, record),
        _ => {}
    }
}

/// Puts faults into a call: those among the numbers of faults of records, each into a record of
/// its own if there are enough, then those among 6, 7 and 12.
pub fn put_faults(
    random: &mut Random,
    call: &mut Call,
    faults: &[u8],
    numbers_of_records: &[u8],
    put_record_fault: impl Fn(&mut Random, &mut Call, u8, usize),
) {
    let in_records = faults_among(faults, numbers_of_records);
    let records = fault_records(random, in_records.len(), call.jobs);
    for (fault, record) in in_records.iter().zip(records) {
        put_record_fault(random, call, *fault, record);
    }
    for fault in faults {
        match fault {
            6 => put_range_fault(random, call),
            7 => put_count_fault(random, call, in_records.is_empty()),
            12 => put_output_fault(random, call),
            _ => {}
        }
    }
}

/// Refusal 6.
fn put_range_fault(random: &mut Random, call: &mut Call) {
    match random.below(5) {
        0 => call.low = 0,
        1 => (call.low, call.high) = (call.high, call.high - 1),
        2 => call.high = LONGEST_QUANTUM + 1,
        3 => call.high = random.byte(LONGEST_QUANTUM + 1, 255),
        _ => (call.low, call.high) = (0, 0),
    }
}

/// Refusal 7: a table's count, or a block's length. A call that is to keep the faults of its
/// records is not emptied.
fn put_count_fault(random: &mut Random, call: &mut Call, may_be_empty: bool) {
    let jobs = call.jobs;
    if call.has_setting_table() {
        call.count = match random.below(4) {
            0 if may_be_empty => 0,
            1 => jobs - 1,
            2 => random.between(MOST_JOBS + 1, 255),
            _ => jobs + 1,
        };
        return;
    }
    let draw = random.below(5);
    let whole = call.setting_length;
    match broken_length(random, draw, whole, SETTING_BYTES, may_be_empty) {
        Some(length) => call.setting_length = length,
        None if draw == 3 => call.setting_length = whole - SETTING_BYTES,
        None => {
            call.setting_records.extend_from_within(jobs - 1..);
            call.setting_length = whole + SETTING_BYTES;
        }
    }
}

/// Refusal 8: another id, or the ids of two records exchanged.
pub fn put_identity_fault(random: &mut Random, call: &mut Call, record: usize) {
    let other = random.below(call.jobs);
    let id = call.setting_records[record][ID];
    if other != record && random.once_in(2) {
        call.setting_records[record][ID] = call.setting_records[other][ID];
        call.setting_records[other][ID] = id;
    } else {
        call.setting_records[record][ID] = id ^ random.byte(1, 255);
    }
}

/// Refusal 9: a record that has none of the three shapes, some by one number only.
fn put_shape_fault(random: &mut Random, call: &mut Call, record: usize) {
    let jobs = call.jobs as u8;
    let level = random.byte(1, jobs);
    let (level, policy, quantum) = match random.below(12) {
        0 => (level, ROUND_ROBIN + 1, 0),
        1 => (level, random.byte(ROUND_ROBIN + 1, 255), call.low),
        2 => (level, NOT_PLACED, 0),
        3 => (0, NOT_PLACED, call.low),
        4 => (level, FIFO, call.low),
        5 => (0, FIFO, 0),
        6 => (jobs + 1, FIFO, 0),
        7 => (jobs + 1, ROUND_ROBIN, call.low),
        8 => (0, ROUND_ROBIN, call.high),
        9 => (level, ROUND_ROBIN, call.low - 1),
        10 => (level, ROUND_ROBIN, call.high + 1),
        _ => (random.byte(jobs + 1, 255), ROUND_ROBIN, call.low),
    };
    set(call, record, level, policy, quantum);
}

/// Changes a record except its id.
fn set(call: &mut Call, record: usize, level: u8, policy: u8, quantum: u8) {
    let bytes = &mut call.setting_records[record];
    (bytes[LEVEL], bytes[POLICY], bytes[QUANTUM]) = (level, policy, quantum);
}

/// Refusal 10: a policy 2 job alone on its level, or a policy 1 job on the level of another.
fn put_sharing_fault(random: &mut Random, call: &mut Call, record: usize) {
    let jobs = call.jobs;
    let other = random.below(jobs);
    if other == record || random.once_in(2) {
        let is_free = |level: &u8| {
            let mut others = call.setting_records.iter().enumerate();
            others.all(|(index, bytes)| index == record || bytes[LEVEL] != *level)
        };
        let level = (1..=jobs as u8).find(is_free);
        let quantum = random.byte(call.low, call.high);
        set(call, record, level.unwrap_or(1), ROUND_ROBIN, quantum);
        return;
    }
    let level = call.setting_records[other][LEVEL];
    if level == 0 {
        set(call, other, 1, FIFO, 0);
    }
    set(call, record, level.max(1), FIFO, 0);
}

/// Refusal 12: one output is too short, or both are.
fn put_output_fault(random: &mut Random, call: &mut Call) {
    let outputs = call.given.outputs;
    let which = random.below(3);
    for (index, output) in outputs.iter().enumerate() {
        let need = output.bytes_per_job * call.jobs;
        if outputs.len() == 1 || which == 2 || which == index {
            call.output_lengths[index] = match random.below(4) {
                0 => 0,
                1 => random.below(need),
                _ => need - 1,
            };
        }
    }
}
