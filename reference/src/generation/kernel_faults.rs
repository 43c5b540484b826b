//! Priorities of calls on kernel records, and the faults put into them and into kernel records:
//! refusals 13 and 14, and refusals 9 and 10 of kernel records.

use crate::configuration::{FIFO, NOT_PLACED, ROUND_ROBIN};
use crate::generation::call::Call;
use crate::generation::random::Random;
use crate::generation::setting_faults::{put_faults, put_identity_fault};
use crate::kernel::{is_in_top, KernelPriority, PriorityRange};

/// The places of a kernel record's numbers after its id.
const POLICY: usize = 1;
const PRIORITY: usize = 2;
const QUANTUM: usize = 3;

/// Priorities that are enough for so many jobs: all values, as many as there are jobs, or any. Those
/// that are as many as the jobs are at both ends of all values or anywhere.
pub fn any_priorities(random: &mut Random, jobs: usize) -> PriorityRange {
    let more = jobs as u8 - 1;
    let any = random.byte(more, u8::MAX);
    let (lowest, highest) = match random.below(9) {
        0 => (0, u8::MAX),
        1 => (1, 99),
        2 | 3 => (0, more),
        4 => (u8::MAX - more, u8::MAX),
        5 => (any - more, any),
        _ => (random.byte(0, any - more), any),
    };
    PriorityRange::of_bytes(lowest, highest)
}

/// Refusal 13: a lowest priority that leaves too few values for so many jobs. The highest stays, so
/// that kernel records keep their levels, unless there is no such lowest.
pub fn with_too_few(random: &mut Random, priorities: PriorityRange, jobs: usize) -> PriorityRange {
    let highest = priorities.highest.0;
    let one_too_few = usize::from(highest) + 2 - jobs;
    let (lowest, highest) = match u8::try_from(one_too_few) {
        Ok(least) => {
            let any = random.byte(least, u8::MAX);
            (random.choose(&[least, least, any, u8::MAX]), highest)
        }
        Err(_) => (highest, highest - 1),
    };
    PriorityRange::of_bytes(lowest, highest)
}

/// Puts the faults among 6 to 10, 12 and 14 into a call on kernel records that are accepted with
/// this highest priority.
pub fn put_kernel_faults(
    random: &mut Random,
    call: &mut Call,
    highest: KernelPriority,
    faults: &[u8],
) {
    let put = |random: &mut Random, call: &mut Call, fault, record| match fault {
        8 => put_identity_fault(random, call, record),
        14 => put_priority_fault(random, call, highest, record),
        9 => put_shape_fault(random, call, highest, record),
        _ => put_sharing_fault(random, call, highest, record),
    };
    put_faults(random, call, faults, &[8, 14, 9, 10], put);
}

/// A priority outside the top n values, in every other draw one that is close to them.
fn outside_top(random: &mut Random, jobs: usize, highest: KernelPriority) -> u8 {
    let is_outside = |priority: &u8| !is_in_top(KernelPriority(*priority), jobs, highest);
    let outside: Vec<u8> = (0..=u8::MAX).filter(is_outside).collect();
    let is_close = |priority: &u8| usize::from(priority.abs_diff(highest.0)) <= jobs;
    let close: Vec<u8> = outside.iter().copied().filter(is_close).collect();
    match random.below(2) {
        0 => random.choose(&close),
        _ => random.choose(&outside),
    }
}

/// Changes a record except its id.
fn set(call: &mut Call, record: usize, policy: u8, priority: u8, quantum: u8) {
    let bytes = &mut call.setting_records[record];
    (bytes[POLICY], bytes[PRIORITY], bytes[QUANTUM]) = (policy, priority, quantum);
}

/// Refusal 14: a priority outside the top n values, in some draws with a policy above 2.
fn put_priority_fault(
    random: &mut Random,
    call: &mut Call,
    highest: KernelPriority,
    record: usize,
) {
    let priority = outside_top(random, call.jobs, highest);
    let other_policy = random.byte(ROUND_ROBIN + 1, u8::MAX);
    let bytes = &mut call.setting_records[record];
    bytes[PRIORITY] = priority;
    if random.once_in(5) {
        bytes[POLICY] = other_policy;
    }
}

/// Refusal 9: policy 0 with a priority inside or outside the top n values, or with the priority kept
/// a policy and a quantum that do not belong together.
fn put_shape_fault(random: &mut Random, call: &mut Call, highest: KernelPriority, record: usize) {
    let kept = call.setting_records[record][PRIORITY];
    let outside = outside_top(random, call.jobs, highest);
    let (policy, priority, quantum) = match random.below(11) {
        0 => (NOT_PLACED, 0, 0),
        1 => (NOT_PLACED, kept, 0),
        2 => (NOT_PLACED, outside, 0),
        3 => (NOT_PLACED, random.choose(&[0, kept, outside]), call.low),
        4 => (FIFO, kept, call.low),
        5 => (FIFO, kept, random.byte(1, u8::MAX)),
        6 => (ROUND_ROBIN, kept, 0),
        7 => (ROUND_ROBIN, kept, call.low - 1),
        8 => (ROUND_ROBIN, kept, call.high + 1),
        9 => (ROUND_ROBIN + 1, kept, 0),
        _ => (random.byte(ROUND_ROBIN + 1, u8::MAX), kept, call.low),
    };
    set(call, record, policy, priority, quantum);
}

/// Refusal 10: a policy 2 job alone with its priority, or a policy 1 job with the priority of
/// another.
fn put_sharing_fault(random: &mut Random, call: &mut Call, highest: KernelPriority, record: usize) {
    let other = random.below(call.jobs);
    if other != record && random.once_in(2) {
        let priority = call.setting_records[other][PRIORITY];
        set(call, record, FIFO, priority, 0);
        return;
    }
    let is_free = |priority: &u8| {
        let mut others = call.setting_records.iter().enumerate();
        others.all(|(index, bytes)| index == record || bytes[PRIORITY] != *priority)
    };
    let lowest_of_top = highest.0 - (call.jobs as u8 - 1);
    let free: Vec<u8> = (lowest_of_top..=highest.0).filter(is_free).collect();
    let (priority, quantum) = (random.choose(&free), random.byte(call.low, call.high));
    set(call, record, ROUND_ROBIN, priority, quantum);
}
