//! Configurations: reading a block, writing a table, refusals 6 to 10, and the test for same bytes.

use crate::jobs::{jobs_of_block, Job, MOST_JOBS};
use crate::refusal::{judge_output, Refusal};

/// "64 the longest quantum".
pub const LONGEST_QUANTUM: u8 = 64;

/// "Configuration, 4 bytes".
pub const SETTING_BYTES: usize = 4;

/// "Policy 0 is not placed".
pub const NOT_PLACED: u8 = 0;

/// "Policy 1 is sched_fifo".
pub const FIFO: u8 = 1;

/// "Policy 2 is sched_rr".
pub const ROUND_ROBIN: u8 = 2;

/// "id, level, policy, quantum". The default is the blank entry, all of whose numbers are 0.
#[derive(Clone, Copy, Debug, Default, PartialEq, Eq)]
pub struct Setting {
    pub id: u8,
    pub level: u8,
    pub policy: u8,
    pub quantum: u8,
}

/// A table of settings; the entries past its count are blank.
pub type SettingTable = [Setting; MOST_JOBS];

/// The permitted quanta, "from the lowest to the highest permitted".
#[derive(Clone, Copy, Debug, PartialEq, Eq)]
pub struct QuantumRange {
    pub lowest: u8,
    pub highest: u8,
}

/// The setting of a job that is not placed: "Policy 0 is not placed (level 0, quantum 0)."
pub fn not_placed(job: &Job) -> Setting {
    Setting {
        id: job.id,
        level: 0,
        policy: NOT_PLACED,
        quantum: 0,
    }
}

/// The setting of a 4-byte record.
pub fn setting_of_record(record: &[u8]) -> Setting {
    Setting {
        id: record[0],
        level: record[1],
        policy: record[2],
        quantum: record[3],
    }
}

/// The 4-byte record of a setting.
pub fn record_of_setting(setting: &Setting) -> [u8; SETTING_BYTES] {
    [setting.id, setting.level, setting.policy, setting.quantum]
}

/// The settings of all whole records of some bytes, which are not judged.
pub fn settings_of_records(bytes: &[u8]) -> Vec<Setting> {
    bytes
        .chunks_exact(SETTING_BYTES)
        .map(setting_of_record)
        .collect()
}

/// The records of settings.
pub fn records_of_settings(settings: &[Setting]) -> Vec<u8> {
    settings.iter().flat_map(record_of_setting).collect()
}

/// Refusal 6: "The lowest quantum is 0 or above the highest, or the highest is above 64."
pub fn judge_range(lowest: u8, highest: u8) -> Result<QuantumRange, Refusal> {
    if lowest == 0 || lowest > highest || highest > LONGEST_QUANTUM {
        return Err(Refusal::QuantumRange);
    }
    Ok(QuantumRange { lowest, highest })
}

/// Refusal 8: "Its ids are not the jobs' ids in order."
pub fn judge_setting_identity(jobs: &[Job], settings: &[Setting]) -> Result<(), Refusal> {
    for (job, setting) in jobs.iter().zip(settings) {
        if setting.id != job.id {
            return Err(Refusal::ConfigurationIdentity);
        }
    }
    Ok(())
}

/// "Policy 0 is not placed (level 0, quantum 0). Policy 1 is sched_fifo (quantum 0). Policy 2 is
/// sched_rr (quantum from the lowest to the highest permitted). A placed job's level is 1 to n".
fn has_a_shape(setting: &Setting, job_count: usize, range: QuantumRange) -> bool {
    let placed_level = setting.level >= 1 && usize::from(setting.level) <= job_count;
    match setting.policy {
        NOT_PLACED => setting.level == 0 && setting.quantum == 0,
        FIFO => placed_level && setting.quantum == 0,
        ROUND_ROBIN => {
            placed_level && setting.quantum >= range.lowest && setting.quantum <= range.highest
        }
        _ => false,
    }
}

/// Refusal 9: "A record has none of the three shapes above."
pub fn judge_shapes(
    settings: &[Setting],
    job_count: usize,
    range: QuantumRange,
) -> Result<(), Refusal> {
    for setting in settings {
        if !has_a_shape(setting, job_count, range) {
            return Err(Refusal::RecordShape);
        }
    }
    Ok(())
}

/// Refusal 10: "A policy 1 job shares its level or a policy 2 job is alone on its level." Only
/// placed jobs are counted on a level.
pub fn judge_sharing(settings: &[Setting]) -> Result<(), Refusal> {
    for setting in settings {
        let on_level = settings
            .iter()
            .filter(|other| other.policy != NOT_PLACED && other.level == setting.level)
            .count();
        if setting.policy == FIFO && on_level > 1 {
            return Err(Refusal::LevelSharing);
        }
        if setting.policy == ROUND_ROBIN && on_level == 1 {
            return Err(Refusal::LevelSharing);
        }
    }
    Ok(())
}

/// Refusals 8, 9 and 10 of settings that are as many as the jobs.
fn judge_settings(jobs: &[Job], range: QuantumRange, settings: &[Setting]) -> Result<(), Refusal> {
    judge_setting_identity(jobs, settings)?;
    judge_shapes(settings, jobs.len(), range)?;
    judge_sharing(settings)
}

/// The settings of a configuration block for accepted jobs and range: refusals 7 to 10.
pub fn settings_of_block(
    jobs: &[Job],
    range: QuantumRange,
    block: &[u8],
) -> Result<Vec<Setting>, Refusal> {
    if block.len() != SETTING_BYTES * jobs.len() {
        return Err(Refusal::ConfigurationCount);
    }
    let settings = settings_of_records(block);
    judge_settings(jobs, range, &settings)?;
    Ok(settings)
}

/// The jobs of a block and the range: refusals 1, 2, 3, 5 and 6.
pub fn jobs_and_range(
    job_block: &[u8],
    lowest: u8,
    highest: u8,
) -> Result<(Vec<Job>, QuantumRange), Refusal> {
    let jobs = jobs_of_block(job_block)?;
    let range = judge_range(lowest, highest)?;
    Ok((jobs, range))
}

/// The jobs and the settings of two blocks.
pub fn jobs_and_settings(
    job_block: &[u8],
    lowest: u8,
    highest: u8,
    configuration_block: &[u8],
) -> Result<(Vec<Job>, Vec<Setting>), Refusal> {
    let (jobs, range) = jobs_and_range(job_block, lowest, highest)?;
    let settings = settings_of_block(&jobs, range, configuration_block)?;
    Ok((jobs, settings))
}

/// Entry 3: the count of settings, and their table. After a refusal the whole table is blank.
pub fn read_configuration(
    job_block: &[u8],
    lowest: u8,
    highest: u8,
    configuration_block: &[u8],
) -> (Result<usize, Refusal>, SettingTable) {
    let mut table = [Setting::default(); MOST_JOBS];
    match jobs_and_settings(job_block, lowest, highest, configuration_block) {
        Ok((_, settings)) => {
            table[..settings.len()].copy_from_slice(&settings);
            (Ok(settings.len()), table)
        }
        Err(refusal) => (Err(refusal), table),
    }
}

/// Writes settings as records at the start of an output that is long enough.
pub fn put_settings(settings: &[Setting], output: &mut [u8]) {
    let records = records_of_settings(settings);
    output[..records.len()].copy_from_slice(&records);
}

/// Entry 4: writes the table's first n settings as a block and answers its length.
pub fn write_configuration(
    job_block: &[u8],
    lowest: u8,
    highest: u8,
    table: &SettingTable,
    count: usize,
    output: &mut [u8],
) -> Result<usize, Refusal> {
    let (jobs, range) = jobs_and_range(job_block, lowest, highest)?;
    if count != jobs.len() {
        return Err(Refusal::ConfigurationCount);
    }
    let settings = &table[..count];
    judge_settings(&jobs, range, settings)?;
    let need = SETTING_BYTES * count;
    judge_output(output, need)?;
    put_settings(settings, output);
    Ok(need)
}

/// Entry 8: "unequal lengths give no, two empty blocks give yes."
pub fn same_bytes(first: &[u8], second: &[u8]) -> bool {
    if first.len() != second.len() {
        return false;
    }
    for index in 0..first.len() {
        if first[index] != second[index] {
            return false;
        }
    }
    true
}
