//! Kernel records: a configuration as what a box loader reads, and back.

use crate::same::job::{Jobs, Range};
use crate::same::setting::{
    read_settings, write_settings, Setting, Settings, FIFO, NOT_PLACED, ROUND_ROBIN, SETTING_SIZE,
};
use crate::same::{word, Refusal, MOST_JOBS};

/// The size of a kernel record, in bytes.
const KERNEL_SIZE: usize = 4;

/// A level of a configuration: the smaller runs first.
#[derive(Clone, Copy)]
struct Level(u8);

/// A priority of a kernel: the larger runs first.
#[derive(Clone, Copy, Default, PartialEq)]
struct KernelPriority(u8);

/// The priority of a level; a level past the priority 0 has the priority 0.
fn priority_of(level: Level, highest: KernelPriority) -> KernelPriority {
    KernelPriority(highest.0.saturating_sub(level.0.saturating_sub(1)))
}

/// The level of a priority; a priority above the highest is taken as the highest.
fn level_of(priority: KernelPriority, highest: KernelPriority) -> Level {
    Level(highest.0.saturating_sub(priority.0).saturating_add(1))
}

/// The kernel record of a job.
#[derive(Clone, Copy, Default)]
struct KernelRecord {
    id: u8,
    policy: u8,
    priority: KernelPriority,
    quantum: u8,
}

type Kernels = [KernelRecord; MOST_JOBS];

impl KernelRecord {
    fn of_setting(setting: &Setting, highest: KernelPriority) -> KernelRecord {
        KernelRecord {
            id: setting.id,
            policy: setting.policy,
            priority: priority_of(Level(setting.level), highest),
            quantum: setting.quantum,
        }
    }

    fn setting(&self, highest: KernelPriority) -> Setting {
        Setting {
            id: self.id,
            level: level_of(self.priority, highest).0,
            policy: self.policy,
            quantum: self.quantum,
        }
    }

    fn is_on_top(&self, count: usize, highest: KernelPriority) -> bool {
        self.policy == NOT_PLACED
            || self.priority.0 <= highest.0 && usize::from(highest.0 - self.priority.0) < count
    }

    fn is_scheduled(&self, range: Range) -> bool {
        match self.policy {
            FIFO => self.quantum == 0,
            ROUND_ROBIN => range.low <= self.quantum && self.quantum <= range.high,
            _ => false,
        }
    }

    fn is_prioritised(&self, kernels: &[KernelRecord]) -> bool {
        let sharing = kernels
            .iter()
            .filter(|other| other.priority == self.priority)
            .count();
        match self.policy {
            FIFO => sharing == 1,
            ROUND_ROBIN => 2 <= sharing,
            _ => true,
        }
    }
}

/// Reads a kernel block for jobs, a range and the highest priority: refusals 7, 8, 14, 9 and 10.
fn read_kernels(
    jobs: &Jobs,
    range: Range,
    highest: KernelPriority,
    block: &[u8],
) -> Result<Kernels, Refusal> {
    if block.len() != KERNEL_SIZE * jobs.count {
        return Err(7);
    }
    let mut table = [KernelRecord::default(); MOST_JOBS];
    for (kernel, record) in table.iter_mut().zip(block.chunks_exact(KERNEL_SIZE)) {
        *kernel = KernelRecord {
            id: record[0],
            policy: record[1],
            priority: KernelPriority(record[2]),
            quantum: record[3],
        };
    }
    let kernels = &table[..jobs.count];
    let mut pairs = kernels.iter().zip(jobs.listed());
    if pairs.any(|(kernel, job)| kernel.id != job.id) {
        return Err(8);
    }
    let mut each = kernels.iter();
    if !each.all(|kernel| kernel.is_on_top(jobs.count, highest)) {
        return Err(14);
    }
    if !kernels.iter().all(|kernel| kernel.is_scheduled(range)) {
        return Err(9);
    }
    if !kernels.iter().all(|kernel| kernel.is_prioritised(kernels)) {
        return Err(10);
    }
    Ok(table)
}

/// The jobs of a block, and the range: refusals 1, 2, 3, 5, 6 and 13.
fn read(jobs: &[u8], quanta: (u8, u8), priorities: (u8, u8)) -> Result<(Jobs, Range), Refusal> {
    let jobs = Jobs::read(jobs)?;
    let range = Range::new(quanta.0, quanta.1)?;
    let (lowest, highest) = priorities;
    if highest < lowest || usize::from(highest - lowest) + 1 < jobs.count {
        return Err(13);
    }
    Ok((jobs, range))
}

fn write_kernels(kernels: &[KernelRecord], output: &mut [u8]) {
    for (record, kernel) in output.chunks_exact_mut(KERNEL_SIZE).zip(kernels) {
        let bytes = [kernel.id, kernel.policy, kernel.priority.0, kernel.quantum];
        record.copy_from_slice(&bytes);
    }
}

fn there(
    block: &[u8],
    quanta: (u8, u8),
    priorities: (u8, u8),
    configuration: &[u8],
    output: &mut [u8],
) -> Result<u32, Refusal> {
    let (jobs, range) = read(block, quanta, priorities)?;
    let settings = read_settings(&jobs, range, configuration)?;
    let listed = &settings[..jobs.count];
    if listed.iter().any(|setting| setting.policy == NOT_PLACED) {
        return Err(11);
    }
    if output.len() < KERNEL_SIZE * jobs.count {
        return Err(12);
    }
    let highest = KernelPriority(priorities.1);
    let mut kernels = [KernelRecord::default(); MOST_JOBS];
    for (kernel, setting) in kernels.iter_mut().zip(listed) {
        *kernel = KernelRecord::of_setting(setting, highest);
    }
    write_kernels(&kernels[..jobs.count], output);
    Ok(0)
}

fn back(
    block: &[u8],
    quanta: (u8, u8),
    priorities: (u8, u8),
    kernel: &[u8],
    output: &mut [u8],
) -> Result<u32, Refusal> {
    let (jobs, range) = read(block, quanta, priorities)?;
    let highest = KernelPriority(priorities.1);
    let kernels = read_kernels(&jobs, range, highest, kernel)?;
    if output.len() < SETTING_SIZE * jobs.count {
        return Err(12);
    }
    let settings: Settings = kernels.map(|kernel| kernel.setting(highest));
    write_settings(&settings[..jobs.count], output);
    Ok(0)
}

/// Converts a full configuration block to kernel records.
pub fn to_kernel(
    jobs: &[u8],
    quanta: (u8, u8),
    priorities: (u8, u8),
    configuration: &[u8],
    output: &mut [u8],
) -> u32 {
    word(there(jobs, quanta, priorities, configuration, output))
}

/// Converts a kernel block to a configuration block.
pub fn from_kernel(
    jobs: &[u8],
    quanta: (u8, u8),
    priorities: (u8, u8),
    kernel: &[u8],
    output: &mut [u8],
) -> u32 {
    word(back(jobs, quanta, priorities, kernel, output))
}
