//! Jobs, quantum ranges and the job block.

use crate::same::{Refusal, MOST_JOBS};

/// The longest period, in ticks.
pub const LONGEST_PERIOD: u16 = 60_000;

/// The longest deadline, in ticks.
pub const LONGEST_DEADLINE: u16 = 60_000;

/// The longest delay, in ticks.
pub const LONGEST_DELAY: u8 = 255;

/// The longest quantum, in ticks.
pub const LONGEST_QUANTUM: u8 = 64;

/// The size of a job record, in bytes.
pub const JOB_SIZE: usize = 8;

/// A periodic job.
#[derive(Clone, Copy, Default, PartialEq, Eq, Debug)]
pub struct Job {
    pub id: u8,
    /// How late its releases may be noticed, in ticks.
    pub delay: u8,
    pub cost: u16,
    pub period: u16,
    pub deadline: u16,
}

/// A table of jobs, blank past the last one, with their number.
pub struct Jobs {
    pub table: [Job; MOST_JOBS],
    pub count: usize,
}

/// The lowest and the highest quantum.
#[derive(Clone, Copy)]
pub struct Range {
    pub low: u8,
    pub high: u8,
}

impl Job {
    fn times_are_ok(&self) -> bool {
        1 <= self.cost
            && self.cost <= self.deadline
            && self.cost <= self.period
            && self.deadline <= LONGEST_DEADLINE
            && self.period <= LONGEST_PERIOD
    }

    fn of_record(record: &[u8]) -> Job {
        let number = |at: usize| u16::from_be_bytes([record[at], record[at + 1]]);
        Job {
            id: record[0],
            delay: record[1],
            cost: number(2),
            period: number(4),
            deadline: number(6),
        }
    }

    /// The record of the job.
    pub fn record(&self) -> [u8; JOB_SIZE] {
        let mut record = [0; JOB_SIZE];
        record[0] = self.id;
        record[1] = self.delay;
        record[2..4].copy_from_slice(&self.cost.to_be_bytes());
        record[4..6].copy_from_slice(&self.period.to_be_bytes());
        record[6..8].copy_from_slice(&self.deadline.to_be_bytes());
        record
    }
}

impl Range {
    /// A range, or refusal 6.
    pub fn new(low: u8, high: u8) -> Result<Range, Refusal> {
        if low < 1 || high < low || LONGEST_QUANTUM < high {
            return Err(6);
        }
        Ok(Range { low, high })
    }
}

/// The jobs of a block, and a range of quanta.
pub fn question(block: &[u8], low: u8, high: u8) -> Result<(Jobs, Range), Refusal> {
    let jobs = Jobs::read(block)?;
    let range = Range::new(low, high)?;
    Ok((jobs, range))
}

impl Jobs {
    /// The jobs of the table.
    pub fn listed(&self) -> &[Job] {
        &self.table[..self.count]
    }

    /// Reads a job block: refusals 1, 2, 3 and 5.
    pub fn read(block: &[u8]) -> Result<Jobs, Refusal> {
        let whole = block.len().is_multiple_of(JOB_SIZE);
        if block.is_empty() || MOST_JOBS * JOB_SIZE < block.len() || !whole {
            return Err(1);
        }
        let mut jobs = Jobs {
            table: [Job::default(); MOST_JOBS],
            count: block.len() / JOB_SIZE,
        };
        for (job, record) in jobs.table.iter_mut().zip(block.chunks_exact(JOB_SIZE)) {
            *job = Job::of_record(record);
        }
        jobs.judge()?;
        Ok(jobs)
    }

    fn judge(&self) -> Result<(), Refusal> {
        let listed = self.listed();
        if listed.iter().any(|job| job.id == 0) {
            return Err(2);
        }
        if listed.windows(2).any(|pair| pair[1].id <= pair[0].id) {
            return Err(3);
        }
        if !listed.iter().all(Job::times_are_ok) {
            return Err(5);
        }
        Ok(())
    }
}
