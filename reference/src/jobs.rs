//! Jobs: reading a job block, writing a job table, and refusals 1, 2, 3 and 5.

use crate::refusal::{judge_output, Refusal};

/// "8 the most jobs".
pub const MOST_JOBS: usize = 8;

/// "60,000 ticks is the longest period".
pub const LONGEST_PERIOD: u16 = 60_000;

/// D may exceed T, "up to 60,000".
pub const LONGEST_DEADLINE: u16 = 60_000;

/// "Job, 8 bytes".
pub const JOB_BYTES: usize = 8;

/// "id (1 to 255)", by E4 "the delay J, 0 to 255 ticks", "cost C, period T, deadline D (two bytes
/// each)". The default is the blank entry, all of whose numbers are 0.
#[derive(Clone, Copy, Debug, Default, PartialEq, Eq)]
pub struct Job {
    pub id: u8,
    pub delay: u8,
    pub cost: u16,
    pub period: u16,
    pub deadline: u16,
}

/// A table of jobs; the entries past its count are blank.
pub type JobTable = [Job; MOST_JOBS];

/// "Two-byte numbers have the high byte first."
pub fn two_byte_number(high: u8, low: u8) -> u16 {
    u16::from(high) * 256 + u16::from(low)
}

/// The job of an 8-byte record: "The job record's second byte becomes the delay J".
pub fn job_of_record(record: &[u8]) -> Job {
    Job {
        id: record[0],
        delay: record[1],
        cost: two_byte_number(record[2], record[3]),
        period: two_byte_number(record[4], record[5]),
        deadline: two_byte_number(record[6], record[7]),
    }
}

/// The 8-byte record of a job.
pub fn record_of_job(job: &Job) -> [u8; JOB_BYTES] {
    let [cost_high, cost_low] = job.cost.to_be_bytes();
    let [period_high, period_low] = job.period.to_be_bytes();
    let [deadline_high, deadline_low] = job.deadline.to_be_bytes();
    [
        job.id,
        job.delay,
        cost_high,
        cost_low,
        period_high,
        period_low,
        deadline_high,
        deadline_low,
    ]
}

/// Refusal 1 of a block: "The job block is empty, over 64 bytes or not a multiple of 8".
pub fn judge_block_length(block: &[u8]) -> Result<(), Refusal> {
    let length = block.len();
    if length == 0 || length > MOST_JOBS * JOB_BYTES || !length.is_multiple_of(JOB_BYTES) {
        return Err(Refusal::JobCount);
    }
    Ok(())
}

/// Refusal 1 of a table: "a table has 0 or more than 8 jobs".
pub fn judge_table_count(count: usize) -> Result<(), Refusal> {
    if count == 0 || count > MOST_JOBS {
        return Err(Refusal::JobCount);
    }
    Ok(())
}

/// Refusal 2: "A job's id is 0". By E4 it "concerns the id alone": every delay is accepted.
pub fn judge_identity(jobs: &[Job]) -> Result<(), Refusal> {
    if jobs.iter().any(|job| job.id == 0) {
        return Err(Refusal::JobIdentity);
    }
    Ok(())
}

/// Refusal 3: "A job's id is not above the one before."
pub fn judge_order(jobs: &[Job]) -> Result<(), Refusal> {
    for index in 1..jobs.len() {
        if jobs[index].id <= jobs[index - 1].id {
            return Err(Refusal::JobOrder);
        }
    }
    Ok(())
}

/// Refusal 5: "A C is 0, a C is above its D", "or a T is above 60,000", and by E1 "D above 60,000
/// and C above T".
pub fn judge_times(jobs: &[Job]) -> Result<(), Refusal> {
    for job in jobs {
        if job.cost == 0
            || job.cost > job.deadline
            || job.cost > job.period
            || job.period > LONGEST_PERIOD
            || job.deadline > LONGEST_DEADLINE
        {
            return Err(Refusal::JobTimes);
        }
    }
    Ok(())
}

/// The jobs of all whole records of some bytes, which are not judged.
pub fn jobs_of_records(bytes: &[u8]) -> Vec<Job> {
    bytes.chunks_exact(JOB_BYTES).map(job_of_record).collect()
}

/// The records of jobs.
pub fn records_of_jobs(jobs: &[Job]) -> Vec<u8> {
    jobs.iter().flat_map(record_of_job).collect()
}

/// The jobs of a block, refusals 1, 2, 3 and 5 being "sought through all records" one by one.
pub fn jobs_of_block(block: &[u8]) -> Result<Vec<Job>, Refusal> {
    judge_block_length(block)?;
    let jobs = jobs_of_records(block);
    judge_identity(&jobs)?;
    judge_order(&jobs)?;
    judge_times(&jobs)?;
    Ok(jobs)
}

/// Entry 1: the count of jobs, and their table. After a refusal the whole table is blank.
pub fn read_jobs(block: &[u8]) -> (Result<usize, Refusal>, JobTable) {
    let mut table = [Job::default(); MOST_JOBS];
    match jobs_of_block(block) {
        Ok(jobs) => {
            table[..jobs.len()].copy_from_slice(&jobs);
            (Ok(jobs.len()), table)
        }
        Err(refusal) => (Err(refusal), table),
    }
}

/// Writes jobs as records at the start of an output that is long enough.
pub fn put_jobs(jobs: &[Job], output: &mut [u8]) {
    let records = records_of_jobs(jobs);
    output[..records.len()].copy_from_slice(&records);
}

/// Entry 2: writes the first `count` jobs of the table as a block and answers its length.
pub fn write_jobs(table: &JobTable, count: usize, output: &mut [u8]) -> Result<usize, Refusal> {
    judge_table_count(count)?;
    let jobs = &table[..count];
    judge_identity(jobs)?;
    judge_order(jobs)?;
    judge_times(jobs)?;
    let need = JOB_BYTES * count;
    judge_output(output, need)?;
    put_jobs(jobs, output);
    Ok(need)
}
