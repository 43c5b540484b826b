//! Faults put into the jobs of a call: refusals 1, 2, 3 and 5.

use crate::generation::call::Call;
use crate::generation::random::Random;
use crate::jobs::{
    job_of_record, record_of_job, Job, JOB_BYTES, LONGEST_DEADLINE, LONGEST_PERIOD, MOST_JOBS,
};

/// A change to a job's times that puts a fault into them.
pub type BadTimes = fn(&mut Random, &Job) -> Job;

/// The faults that are among the given numbers.
pub fn faults_among(faults: &[u8], numbers: &[u8]) -> Vec<u8> {
    let mut among = faults.to_vec();
    among.retain(|fault| numbers.contains(fault));
    among
}

/// Distinct records for so many faults. Mostly the records fall while the refusal numbers rise, so
/// that an earlier record holds the later fault.
pub fn fault_records(random: &mut Random, faults: usize, records: usize) -> Vec<usize> {
    let mut chosen = random.distinct(faults, records);
    while chosen.len() < faults {
        chosen.push(random.below(records));
    }
    if !random.once_in(3) {
        chosen.reverse();
    }
    chosen
}

/// Puts the faults among 2, 3 and 5 into job records, each into a record of its own if there are
/// enough.
pub fn put_job_faults(random: &mut Random, call: &mut Call, faults: &[u8], bad_times: BadTimes) {
    let in_records = faults_among(faults, &[2, 3, 5]);
    let records = fault_records(random, in_records.len(), call.job_records.len());
    for (fault, record) in in_records.iter().zip(records) {
        match fault {
            2 => put_identity_fault(random, call, record),
            3 => put_order_fault(random, call, record),
            _ => put_times_fault(random, call, record, bad_times),
        }
    }
    if faults.contains(&1) {
        put_count_fault(random, call, in_records.is_empty());
    }
}

/// Refusal 2: id 0. Every other time a block without delays is given a delay instead, which is
/// accepted.
fn put_identity_fault(random: &mut Random, call: &mut Call, record: usize) {
    if call.has_job_table() || call.has_delay || random.once_in(2) {
        call.job_records[record][0] = 0;
    } else {
        call.job_records[record][1] = random.byte(1, 255);
    }
}

/// Refusal 3: an id that is the one before or below it. A first record has none before, so the
/// fault is then in the second; a list of one job stays as it is.
fn put_order_fault(random: &mut Random, call: &mut Call, record: usize) {
    let record = record.max(1);
    if record >= call.job_records.len() {
        return;
    }
    let before = call.job_records[record - 1][0].max(1);
    call.job_records[record][0] = if random.once_in(2) {
        before
    } else {
        random.byte(1, before)
    };
}

/// Refusal 5: one job with times out of order or out of range.
fn put_times_fault(random: &mut Random, call: &mut Call, record: usize, bad_times: BadTimes) {
    let bytes = &mut call.job_records[record];
    *bytes = record_of_job(&bad_times(random, &job_of_record(bytes)));
}

/// The job with times that refusal 5 names or, once in seven times, with a deadline one above its
/// period, which is accepted unless the period is the longest. The job's own times are accepted
/// ones.
pub fn with_bad_times(random: &mut Random, job: &Job) -> Job {
    let mut bad = *job;
    match random.below(7) {
        0 => bad.cost = 0,
        1 => bad.cost = job.deadline + 1,
        2 => bad.deadline = job.period + 1,
        3 => bad.period = LONGEST_PERIOD + 1,
        4 => (bad.cost, bad.period, bad.deadline) = (u16::MAX, u16::MAX, u16::MAX),
        5 => (bad.cost, bad.period, bad.deadline) = (0, 0, 0),
        _ => bad.period = random.ticks(LONGEST_PERIOD + 1, u16::MAX),
    }
    bad
}

/// The job with times that refusal 5 names, most of them for one reason alone. The job's own times
/// are accepted ones.
pub fn with_one_bad_time(random: &mut Random, job: &Job) -> Job {
    let mut bad = *job;
    match random.below(12) {
        0 => bad.cost = 0,
        1 => bad.deadline = job.cost - 1,
        2 | 3 => {
            bad.cost = job.period + 1;
            bad.deadline = job.deadline.max(bad.cost);
        }
        4 => bad.period = job.cost - 1,
        5 => bad.period = random.ticks(0, job.cost - 1),
        6 => bad.deadline = LONGEST_DEADLINE + 1,
        7 | 8 => bad.deadline = random.ticks(LONGEST_DEADLINE + 1, u16::MAX),
        9 => bad.period = LONGEST_PERIOD + 1,
        10 => bad.period = random.ticks(LONGEST_PERIOD + 1, u16::MAX),
        _ => {
            (bad.cost, bad.period, bad.deadline) =
                random.choose(&[(0, 0, 0), (u16::MAX, u16::MAX, u16::MAX)])
        }
    }
    bad
}

/// A block's length with a fault for the first draws: empty, unless the call is to keep the faults
/// of its records, and some bytes less or more than whole records. None for the other draws.
pub fn broken_length(
    random: &mut Random,
    draw: usize,
    whole: usize,
    record_bytes: usize,
    may_be_empty: bool,
) -> Option<usize> {
    match draw {
        0 if may_be_empty => Some(0),
        1 => Some(whole - random.between(1, record_bytes - 1)),
        2 => Some(whole + random.between(1, record_bytes - 1)),
        _ => None,
    }
}

/// Refusal 1: a table's count, or a block's length. A call that is to keep the faults of its
/// records is not emptied.
fn put_count_fault(random: &mut Random, call: &mut Call, may_be_empty: bool) {
    if call.has_job_table() {
        call.count = match random.below(3) {
            0 if may_be_empty => 0,
            1 => random.between(MOST_JOBS + 2, 255),
            _ => MOST_JOBS + 1,
        };
        return;
    }
    let draw = random.below(6);
    match broken_length(random, draw, call.job_length, JOB_BYTES, may_be_empty) {
        Some(length) => call.job_length = length,
        None if draw == 3 => lengthen(call, MOST_JOBS + 2),
        None => lengthen(call, MOST_JOBS + 1),
    }
}

/// Appends jobs like the last one but without a delay, with rising ids, until there are so many.
fn lengthen(call: &mut Call, count: usize) {
    while call.job_records.len() < count {
        let mut record = *call.job_records.last().expect("a list is not empty");
        record[0] = record[0].saturating_add(1);
        record[1] = 0;
        call.job_records.push(record);
    }
    call.job_length = JOB_BYTES * count;
}
