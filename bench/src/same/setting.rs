//! Settings and the configuration block.

use crate::same::job::{Jobs, Range};
use crate::same::{Refusal, MOST_JOBS};

/// The policies.
pub const NOT_PLACED: u8 = 0;
pub const FIFO: u8 = 1;
pub const ROUND_ROBIN: u8 = 2;

/// The size of a configuration record, in bytes.
pub const SETTING_SIZE: usize = 4;

/// The setting of a job.
#[derive(Clone, Copy, Default)]
pub struct Setting {
    pub id: u8,
    pub level: u8,
    pub policy: u8,
    pub quantum: u8,
}

/// The settings of a list of jobs, blank past the last one.
pub type Settings = [Setting; MOST_JOBS];

impl Setting {
    /// The setting of a job in a layer of so many jobs.
    pub fn in_layer(id: u8, level: u8, size: u32, quantum: u8) -> Setting {
        let (policy, quantum) = if size == 1 {
            (FIFO, 0)
        } else {
            (ROUND_ROBIN, quantum)
        };
        Setting {
            id,
            level,
            policy,
            quantum,
        }
    }

    /// The record of the setting.
    pub fn record(&self) -> [u8; SETTING_SIZE] {
        [self.id, self.level, self.policy, self.quantum]
    }

    fn has_shape(&self, count: usize, range: Range) -> bool {
        if self.policy == NOT_PLACED {
            return self.level == 0 && self.quantum == 0;
        }
        if self.level < 1 || count < usize::from(self.level) {
            return false;
        }
        match self.policy {
            FIFO => self.quantum == 0,
            ROUND_ROBIN => range.low <= self.quantum && self.quantum <= range.high,
            _ => false,
        }
    }

    fn is_levelled(&self, settings: &[Setting]) -> bool {
        let sharing = settings
            .iter()
            .filter(|other| other.level == self.level)
            .count();
        match self.policy {
            FIFO => sharing == 1,
            ROUND_ROBIN => 2 <= sharing,
            _ => true,
        }
    }
}

/// Writes settings to the first bytes of an output.
pub fn write_settings(settings: &[Setting], output: &mut [u8]) {
    for (record, setting) in output.chunks_exact_mut(SETTING_SIZE).zip(settings) {
        record.copy_from_slice(&setting.record());
    }
}

/// Reads a configuration block for jobs and a range: refusals 7 to 10.
pub fn read_settings(jobs: &Jobs, range: Range, block: &[u8]) -> Result<Settings, Refusal> {
    if block.len() != SETTING_SIZE * jobs.count {
        return Err(7);
    }
    let mut table = [Setting::default(); MOST_JOBS];
    for (setting, record) in table.iter_mut().zip(block.chunks_exact(SETTING_SIZE)) {
        *setting = Setting {
            id: record[0],
            level: record[1],
            policy: record[2],
            quantum: record[3],
        };
    }
    let settings = &table[..jobs.count];
    let mut pairs = settings.iter().zip(jobs.listed());
    if pairs.any(|(setting, job)| setting.id != job.id) {
        return Err(8);
    }
    if !settings
        .iter()
        .all(|each| each.has_shape(jobs.count, range))
    {
        return Err(9);
    }
    if !settings.iter().all(|each| each.is_levelled(settings)) {
        return Err(10);
    }
    Ok(table)
}
