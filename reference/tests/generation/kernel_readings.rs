//! How many of the stored cases tell the refusals of kernel records from those by other readings of
//! the papers.

use reference::entries::{FROM_KERNEL, TO_KERNEL};
use reference::generation::{Case, KERNEL_RECORDS};
use reference::refusal::REFUSALS;

use crate::{job_records, stored_of_kind};

/// What refusals 13, 14 and 9 are about.
struct Given {
    jobs: i32,
    lowest: u8,
    highest: u8,
    /// Policy, priority and quantum, or level, policy and quantum.
    records: Vec<[u8; 3]>,
}

impl Given {
    fn of_case(case: &Case) -> Given {
        let records = case.input.blocks[1].chunks_exact(4);
        Given {
            jobs: job_records(case).len() as i32,
            lowest: case.input.numbers[2] as u8,
            highest: case.input.numbers[3] as u8,
            records: records
                .map(|record| [record[1], record[2], record[3]])
                .collect(),
        }
    }

    /// Whether a priority of a record whose policy is chosen is below a limit or above the highest.
    fn has_outside(&self, lowest: i32, is_chosen: fn(u8) -> bool) -> bool {
        let mut records = self.records.iter();
        records.any(|[policy, priority, _]| {
            let is_outside = i32::from(*priority) < lowest || *priority > self.highest;
            is_chosen(*policy) && is_outside
        })
    }

    /// The lowest of the top n values.
    fn lowest_of_top(&self) -> i32 {
        i32::from(self.highest) - self.jobs + 1
    }
}

/// A reading: its name, how many cases are to tell it, the entry and the refusal that it is about,
/// and whether that refusal applies by it.
type Reading = (&'static str, usize, u8, u8, fn(&Given) -> bool);

/// Readings that are not the right one.
const READINGS: [Reading; 11] = [
    ("13: the sum is one byte", 10, TO_KERNEL, 13, |given| {
        let values = given.highest.wrapping_sub(given.lowest).wrapping_add(1);
        given.lowest > given.highest || i32::from(values) < given.jobs
    }),
    ("13: a difference of one byte", 5, TO_KERNEL, 13, |given| {
        let values = i32::from(given.highest.wrapping_sub(given.lowest)) + 1;
        values < given.jobs
    }),
    ("13: more values than jobs", 20, TO_KERNEL, 13, |given| {
        i32::from(given.highest) - i32::from(given.lowest) < given.jobs
    }),
    ("13: one value less", 5, FROM_KERNEL, 13, |given| {
        i32::from(given.highest) - i32::from(given.lowest) + 2 < given.jobs
    }),
    ("13: the order alone", 10, FROM_KERNEL, 13, |given| {
        given.lowest > given.highest
    }),
    ("14: policy 0 too", 3, FROM_KERNEL, 14, |given| {
        given.has_outside(given.lowest_of_top(), |_| true)
    }),
    ("14: policies 1 and 2 alone", 3, FROM_KERNEL, 14, |given| {
        given.has_outside(given.lowest_of_top(), |policy| matches!(policy, 1 | 2))
    }),
    ("14: from the lowest on", 10, FROM_KERNEL, 14, |given| {
        given.has_outside(i32::from(given.lowest), |policy| policy != 0)
    }),
    ("14: one value more", 3, FROM_KERNEL, 14, |given| {
        given.has_outside(given.lowest_of_top() - 1, |policy| policy != 0)
    }),
    ("14: one value less", 20, FROM_KERNEL, 14, |given| {
        given.has_outside(given.lowest_of_top() + 1, |policy| policy != 0)
    }),
    ("14: nothing above", 10, FROM_KERNEL, 14, |given| {
        let mut records = given.records.iter();
        records.any(|[policy, priority, _]| {
            *policy != 0 && i32::from(*priority) < given.lowest_of_top()
        })
    }),
];

/// The refusal of a case if one number applies by a reading.
fn refusal_by(case: &Case, number: u8, applies: bool) -> u8 {
    let faults = case.faults();
    let is_present = |other: u8| {
        let mut faults = faults.iter();
        match other == number {
            true => applies,
            false => faults.any(|fault| fault.refusal.number() == other),
        }
    };
    let mut numbers = REFUSALS.iter().map(|refusal| refusal.number());
    numbers.find(|other| is_present(*other)).unwrap_or(0)
}

#[test]
fn some_refusals_differ_by_other_readings_of_priorities() {
    for (name, least, entry, number, applies) in READINGS {
        let cases = stored_of_kind(&KERNEL_RECORDS).iter();
        let cases = cases.filter(|case| case.input.head == entry);
        let differing = cases.filter(|case| {
            let by_reading = refusal_by(case, number, applies(&Given::of_case(case)));
            by_reading != case.output.head
        });
        let differing = differing.count();
        assert!(differing >= least, "{name}: {differing} cases");
    }
}
