//! Kernel records: levels and kernel priorities, refusals 13 and 14, refusals 7 to 10 of kernel
//! records, and the conversion of configurations into kernel records and back.

use crate::configuration::{
    jobs_and_range, put_settings, settings_of_block, QuantumRange, Setting, FIFO, NOT_PLACED,
    ROUND_ROBIN, SETTING_BYTES,
};
use crate::jobs::Job;
use crate::marker::judge_full;
use crate::refusal::{judge_output, Refusal};

/// "kernel records: id, policy, priority, quantum, one byte each".
pub const KERNEL_BYTES: usize = 4;

/// A level of a configuration: "the smaller level runs first".
#[derive(Clone, Copy, Debug, PartialEq, Eq, PartialOrd, Ord)]
pub struct Level(pub u8);

/// A kernel priority. "A level and a kernel priority run in opposite senses": the greater runs
/// first.
#[derive(Clone, Copy, Debug, PartialEq, Eq, PartialOrd, Ord)]
pub struct KernelPriority(pub u8);

/// "a lowest and highest priority of one byte each".
#[derive(Clone, Copy, Debug, PartialEq, Eq)]
pub struct PriorityRange {
    pub lowest: KernelPriority,
    pub highest: KernelPriority,
}

impl PriorityRange {
    /// The priorities of two bytes, which are not judged.
    pub fn of_bytes(lowest: u8, highest: u8) -> PriorityRange {
        PriorityRange {
            lowest: KernelPriority(lowest),
            highest: KernelPriority(highest),
        }
    }
}

/// "id, policy, priority, quantum".
#[derive(Clone, Copy, Debug, PartialEq, Eq)]
pub struct KernelRecord {
    pub id: u8,
    pub policy: u8,
    pub priority: KernelPriority,
    pub quantum: u8,
}

/// "level v becomes highest − v + 1". A level is at least 1 and there are at least v values up to
/// the highest, so that v - 1 is taken off; highest - v may be below 0 and highest + 1 above 255.
pub fn priority_of_level(level: Level, highest: KernelPriority) -> KernelPriority {
    KernelPriority(highest.0 - (level.0 - 1))
}

/// "and back", for one of the top n values: highest - priority is at most n - 1.
pub fn level_of_priority(priority: KernelPriority, highest: KernelPriority) -> Level {
    Level(highest.0 - priority.0 + 1)
}

/// The kernel record of a placed job's setting.
pub fn kernel_of_setting(setting: &Setting, highest: KernelPriority) -> KernelRecord {
    KernelRecord {
        id: setting.id,
        policy: setting.policy,
        priority: priority_of_level(Level(setting.level), highest),
        quantum: setting.quantum,
    }
}

/// The setting of an accepted kernel record.
pub fn setting_of_kernel(record: &KernelRecord, highest: KernelPriority) -> Setting {
    Setting {
        id: record.id,
        level: level_of_priority(record.priority, highest).0,
        policy: record.policy,
        quantum: record.quantum,
    }
}

/// The kernel record of four bytes.
fn kernel_of_bytes(bytes: &[u8]) -> KernelRecord {
    KernelRecord {
        id: bytes[0],
        policy: bytes[1],
        priority: KernelPriority(bytes[2]),
        quantum: bytes[3],
    }
}

/// The four bytes of a kernel record.
pub fn bytes_of_kernel(record: &KernelRecord) -> [u8; KERNEL_BYTES] {
    let KernelPriority(priority) = record.priority;
    [record.id, record.policy, priority, record.quantum]
}

/// Writes kernel records at the start of an output that is long enough.
fn put_kernel_records(records: &[KernelRecord], output: &mut [u8]) {
    let bytes: Vec<u8> = records.iter().flat_map(bytes_of_kernel).collect();
    output[..bytes.len()].copy_from_slice(&bytes);
}

/// All whole kernel records of some bytes, which are not judged.
pub fn kernel_records_of_bytes(bytes: &[u8]) -> Vec<KernelRecord> {
    bytes
        .chunks_exact(KERNEL_BYTES)
        .map(kernel_of_bytes)
        .collect()
}

/// Refusal 13: "the lowest priority is above the highest or the two span fewer than n values". The
/// values are counted one by one, as 0 to 255 are 256, which one byte does not hold.
pub fn judge_priority_range(
    lowest: u8,
    highest: u8,
    job_count: usize,
) -> Result<PriorityRange, Refusal> {
    let values = (lowest..=highest).count();
    if lowest > highest || values < job_count {
        return Err(Refusal::PriorityRange);
    }
    Ok(PriorityRange::of_bytes(lowest, highest))
}

/// Refusal 8 of kernel records: "Its ids are not the jobs' ids in order."
pub fn judge_kernel_identity(jobs: &[Job], records: &[KernelRecord]) -> Result<(), Refusal> {
    for (job, record) in jobs.iter().zip(records) {
        if record.id != job.id {
            return Err(Refusal::ConfigurationIdentity);
        }
    }
    Ok(())
}

/// Whether a priority is one of "the top n values", highest - n + 1 to highest.
pub fn is_in_top(priority: KernelPriority, job_count: usize, highest: KernelPriority) -> bool {
    priority <= highest && usize::from(highest.0 - priority.0) < job_count
}

/// Refusal 14: "a kernel priority is outside the top n values". As "policy 0 always gets 9", a
/// record with that policy is not looked at.
pub fn judge_priorities(
    records: &[KernelRecord],
    job_count: usize,
    highest: KernelPriority,
) -> Result<(), Refusal> {
    for record in records {
        if record.policy != NOT_PLACED && !is_in_top(record.priority, job_count, highest) {
            return Err(Refusal::KernelPriority);
        }
    }
    Ok(())
}

/// The shapes of configuration records with "refusal 9's level test done by 14 for kernel records,
/// where policy 0 always gets 9".
fn has_a_shape(record: &KernelRecord, range: QuantumRange) -> bool {
    match record.policy {
        FIFO => record.quantum == 0,
        ROUND_ROBIN => record.quantum >= range.lowest && record.quantum <= range.highest,
        _ => false,
    }
}

/// Refusal 9 of kernel records.
pub fn judge_kernel_shapes(records: &[KernelRecord], range: QuantumRange) -> Result<(), Refusal> {
    for record in records {
        if !has_a_shape(record, range) {
            return Err(Refusal::RecordShape);
        }
    }
    Ok(())
}

/// Refusal 10 of kernel records: a policy 1 job shares its priority or a policy 2 job is alone with
/// its priority.
pub fn judge_kernel_sharing(records: &[KernelRecord]) -> Result<(), Refusal> {
    for record in records {
        let with_priority = records
            .iter()
            .filter(|other| other.priority == record.priority)
            .count();
        if record.policy == FIFO && with_priority > 1 {
            return Err(Refusal::LevelSharing);
        }
        if record.policy == ROUND_ROBIN && with_priority == 1 {
            return Err(Refusal::LevelSharing);
        }
    }
    Ok(())
}

/// The records of a kernel block for accepted jobs, range and priorities: refusals 7, 8, 14, 9 and
/// 10. None of the records has policy 0, so that 11 does not occur.
fn kernel_records_of_block(
    jobs: &[Job],
    range: QuantumRange,
    highest: KernelPriority,
    block: &[u8],
) -> Result<Vec<KernelRecord>, Refusal> {
    if block.len() != KERNEL_BYTES * jobs.len() {
        return Err(Refusal::ConfigurationCount);
    }
    let records = kernel_records_of_bytes(block);
    judge_kernel_identity(jobs, &records)?;
    judge_priorities(&records, jobs.len(), highest)?;
    judge_kernel_shapes(&records, range)?;
    judge_kernel_sharing(&records)?;
    Ok(records)
}

/// Entry 11: writes a full configuration as kernel records. `low` and `high` are quanta, `lowest`
/// and `highest` are priorities.
pub fn to_kernel(
    job_block: &[u8],
    low: u8,
    high: u8,
    lowest: u8,
    highest: u8,
    configuration_block: &[u8],
    output: &mut [u8],
) -> Result<(), Refusal> {
    let (jobs, range) = jobs_and_range(job_block, low, high)?;
    let PriorityRange { highest, .. } = judge_priority_range(lowest, highest, jobs.len())?;
    let settings = settings_of_block(&jobs, range, configuration_block)?;
    judge_full(&settings)?;
    judge_output(output, KERNEL_BYTES * jobs.len())?;
    let records: Vec<KernelRecord> = settings
        .iter()
        .map(|setting| kernel_of_setting(setting, highest))
        .collect();
    put_kernel_records(&records, output);
    Ok(())
}

/// Entry 12: writes kernel records as a full configuration. `low` and `high` are quanta, `lowest`
/// and `highest` are priorities.
pub fn from_kernel(
    job_block: &[u8],
    low: u8,
    high: u8,
    lowest: u8,
    highest: u8,
    kernel_block: &[u8],
    output: &mut [u8],
) -> Result<(), Refusal> {
    let (jobs, range) = jobs_and_range(job_block, low, high)?;
    let PriorityRange { highest, .. } = judge_priority_range(lowest, highest, jobs.len())?;
    let records = kernel_records_of_block(&jobs, range, highest, kernel_block)?;
    judge_output(output, SETTING_BYTES * jobs.len())?;
    let settings: Vec<Setting> = records
        .iter()
        .map(|record| setting_of_kernel(record, highest))
        .collect();
    put_settings(&settings, output);
    Ok(())
}
