//! Each refusal of the conversions into kernel records and back by an example, and the order in
//! which they are sought.

mod common;

use common::{job_block, setting_block, Conversion};
use reference::{from_kernel, to_kernel, Refusal};

/// The byte that every lent output holds before a call.
const LENT: u8 = 0xa5;

/// A call on two jobs, to be changed by a test.
#[derive(Clone)]
struct Call {
    block: Vec<u8>,
    quanta: [u8; 2],
    priorities: [u8; 2],
    records: Vec<u8>,
    output: usize,
    conversion: Conversion,
}

/// An accepted call towards the kernel.
fn towards() -> Call {
    Call {
        block: job_block(&[(6, 8, 8), (5, 22, 22)]),
        quanta: [1, 4],
        priorities: [1, 99],
        records: setting_block(&[[1, 2, 2, 3], [2, 2, 2, 1]]),
        output: 8,
        conversion: to_kernel,
    }
}

/// An accepted call from the kernel.
fn from() -> Call {
    Call {
        records: setting_block(&[[1, 2, 98, 3], [2, 2, 98, 1]]),
        conversion: from_kernel,
        ..towards()
    }
}

impl Call {
    /// The refusal's number, 0 for none. A refusal leaves what is lent.
    fn answer(&self) -> u8 {
        let mut output = vec![LENT; self.output];
        let ([low, high], [lowest, highest]) = (self.quanta, self.priorities);
        let (block, records) = (&self.block, &self.records);
        let answer = (self.conversion)(block, low, high, lowest, highest, records, &mut output);
        assert!(answer.is_ok() || output == vec![LENT; self.output]);
        answer.map_or_else(Refusal::number, |()| 0)
    }
}

/// The answer after a change to an accepted call.
fn changed(mut call: Call, change: impl Fn(&mut Call)) -> u8 {
    change(&mut call);
    call.answer()
}

/// The answers of both entries after the same change.
fn both(change: impl Fn(&mut Call)) -> [u8; 2] {
    [towards(), from()].map(|call| changed(call, &change))
}

/// The answer towards the kernel with other records.
fn towards_with(records: [[u8; 4]; 2]) -> u8 {
    changed(towards(), |call| call.records = setting_block(&records))
}

/// The answer from the kernel with other records.
fn from_with(records: [[u8; 4]; 2]) -> u8 {
    changed(from(), |call| call.records = setting_block(&records))
}

#[test]
fn the_accepted_calls_have_no_refusal() {
    assert_eq!(both(|_| {}), [0; 2]);
}

#[test]
fn refusals_of_the_job_block_and_of_the_quanta() {
    assert_eq!(both(|call| call.block.clear()), [1; 2]);
    assert_eq!(both(|call| call.block.push(0)), [1; 2]);
    assert_eq!(both(|call| call.block[0] = 0), [2; 2]);
    assert_eq!(both(|call| call.block[8] = 1), [3; 2]);
    assert_eq!(both(|call| call.block[3] = 9), [5; 2]);
    for quanta in [[0, 4], [5, 4], [1, 65], [0, 0]] {
        assert_eq!(both(|call| call.quanta = quanta), [6; 2]);
    }
}

#[test]
fn refusals_of_the_priorities() {
    for priorities in [[99, 99], [100, 99], [255, 99], [255, 0], [1, 0], [255, 255]] {
        assert_eq!(both(|call| call.priorities = priorities), [13; 2]);
    }
    assert_eq!(both(|call| call.priorities = [98, 99]), [0; 2]);
    assert_eq!(both(|call| call.priorities = [0, 99]), [0; 2]);
}

#[test]
fn refusals_of_the_configuration() {
    assert_eq!(both(|call| call.records.clear()), [7; 2]);
    assert_eq!(both(|call| call.records.push(0)), [7; 2]);
    assert_eq!(both(|call| call.records.truncate(4)), [7; 2]);
    assert_eq!(both(|call| call.records[0] = 2), [8; 2]);
    assert_eq!(towards_with([[1, 1, 1, 0], [2, 3, 1, 0]]), 9);
    assert_eq!(towards_with([[1, 1, 1, 0], [2, 0, 1, 0]]), 9);
    assert_eq!(towards_with([[1, 1, 1, 0], [2, 2, 0, 0]]), 9);
    assert_eq!(towards_with([[1, 2, 2, 3], [2, 2, 2, 5]]), 9);
    assert_eq!(towards_with([[1, 1, 1, 0], [2, 1, 1, 0]]), 10);
    assert_eq!(towards_with([[1, 1, 2, 3], [2, 2, 2, 1]]), 10);
    assert_eq!(towards_with([[1, 1, 1, 0], [2, 0, 0, 0]]), 11);
    assert_eq!(towards_with([[1, 0, 0, 0], [2, 0, 0, 0]]), 11);
}

#[test]
fn refusals_of_kernel_priorities() {
    // Below the top two values and not below the lowest, below the lowest, and above the highest.
    for priority in [97, 2, 1, 0, 100, 255] {
        for policy in [1, 2, 3, 7, 255] {
            assert_eq!(from_with([[1, 1, 99, 0], [2, policy, priority, 0]]), 14);
        }
    }
    let of_values = |priorities, priority| {
        changed(from(), |call| {
            call.priorities = priorities;
            call.records = setting_block(&[[1, 1, priorities[1], 0], [2, 1, priority, 0]]);
        })
    };
    assert_eq!(of_values([0, 1], 0), 0);
    assert_eq!(of_values([0, 1], 2), 14);
    assert_eq!(of_values([0, 1], 255), 14);
    assert_eq!(of_values([0, 255], 254), 0);
    assert_eq!(of_values([0, 255], 253), 14);
    assert_eq!(of_values([0, 255], 0), 14);
}

#[test]
fn policy_0_always_gets_9() {
    for priority in [0, 1, 97, 98, 99, 100, 255] {
        for quantum in [0, 1] {
            assert_eq!(from_with([[1, 1, 99, 0], [2, 0, priority, quantum]]), 9);
        }
    }
    assert_eq!(from_with([[1, 0, 0, 0], [2, 0, 0, 0]]), 9);
    // Beside a record with another policy and such a priority.
    assert_eq!(from_with([[1, 1, 97, 0], [2, 0, 0, 0]]), 14);
    assert_eq!(from_with([[1, 0, 0, 0], [2, 1, 97, 0]]), 14);
    assert_eq!(from_with([[1, 0, 0, 0], [2, 7, 97, 0]]), 14);
}

#[test]
fn refusals_of_the_shapes_and_the_sharing_of_kernel_records() {
    for record in [
        [2, 1, 98, 1],
        [2, 2, 99, 0],
        [2, 2, 99, 5],
        [2, 3, 98, 0],
        [2, 7, 98, 1],
        [2, 255, 98, 0],
    ] {
        assert_eq!(from_with([[1, 1, 99, 0], record]), 9, "{record:?}");
    }
    assert_eq!(from_with([[1, 1, 99, 0], [2, 1, 99, 0]]), 10);
    assert_eq!(from_with([[1, 2, 98, 3], [2, 1, 98, 0]]), 10);
    assert_eq!(from_with([[1, 1, 98, 0], [2, 2, 98, 1]]), 10);
    assert_eq!(from_with([[1, 2, 99, 3], [2, 2, 98, 1]]), 10);
    assert_eq!(from_with([[1, 1, 99, 0], [2, 2, 98, 1]]), 10);
}

#[test]
fn refusals_of_outputs() {
    for (length, number) in [(0, 12), (7, 12), (8, 0), (9, 0)] {
        assert_eq!(both(|call| call.output = length), [number; 2]);
    }
}

#[test]
fn each_number_is_sought_through_all_records_before_the_next() {
    // The earlier record holds the later fault.
    assert_eq!(towards_with([[1, 3, 1, 0], [3, 1, 1, 0]]), 8);
    assert_eq!(towards_with([[1, 0, 0, 0], [2, 3, 1, 0]]), 9);
    assert_eq!(towards_with([[1, 0, 0, 0], [2, 1, 2, 4]]), 10);
    assert_eq!(from_with([[1, 1, 97, 0], [3, 1, 98, 0]]), 8);
    assert_eq!(from_with([[1, 1, 98, 1], [3, 1, 99, 0]]), 8);
    assert_eq!(from_with([[1, 1, 98, 1], [2, 1, 97, 0]]), 14);
    assert_eq!(from_with([[1, 2, 98, 3], [2, 2, 99, 5]]), 9);
}

#[test]
fn the_order_towards_the_kernel() {
    let mut call = towards();
    let mut next = |number, change: fn(&mut Call)| {
        change(&mut call);
        assert_eq!(call.answer(), number);
    };
    next(12, |call| call.output = 7);
    next(11, |call| {
        call.records = setting_block(&[[1, 1, 1, 0], [2, 0, 0, 0]])
    });
    next(10, |call| call.records[2..4].copy_from_slice(&[2, 3]));
    next(9, |call| call.records[3] = 5);
    next(8, |call| call.records[4] = 1);
    next(7, |call| call.records.push(0));
    next(13, |call| call.priorities = [100, 99]);
    next(6, |call| call.quanta = [5, 4]);
    next(5, |call| call.block[3] = 0);
    next(3, |call| call.block[8] = 1);
    next(2, |call| call.block[0] = 0);
    next(1, |call| call.block.push(0));
}

#[test]
fn the_order_from_the_kernel() {
    let mut call = from();
    let mut next = |number, change: fn(&mut Call)| {
        change(&mut call);
        assert_eq!(call.answer(), number);
    };
    next(12, |call| call.output = 7);
    next(10, |call| call.records[2] = 99);
    next(9, |call| call.records[3] = 5);
    next(14, |call| call.records[6] = 97);
    next(8, |call| call.records[4] = 1);
    next(7, |call| call.records.push(0));
    next(13, |call| call.priorities = [99, 99]);
    next(6, |call| call.quanta = [5, 4]);
    next(5, |call| call.block[3] = 0);
    next(3, |call| call.block[8] = 1);
    next(2, |call| call.block[0] = 0);
    next(1, |call| call.block.push(0));
}
