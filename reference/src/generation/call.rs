//! A call on jobs while it is put together: its records, range, count and output lengths, and the
//! input frame that it becomes.

use crate::configuration::{record_of_setting, QuantumRange, Setting, SETTING_BYTES};
use crate::frames::Frame;
use crate::generation::configured::Configured;
use crate::generation::random::Random;
use crate::jobs::{record_of_job, Job, JOB_BYTES, MOST_JOBS};

/// How an entry is given its jobs or its settings.
#[derive(Clone, Copy, Debug, PartialEq, Eq)]
pub enum Form {
    Block,
    /// Whole, with its count among the numbers.
    Table,
}

/// The quantum range that an entry is given.
#[derive(Clone, Copy, Debug, PartialEq, Eq)]
pub enum Range {
    None,
    Any,
    /// Always the same.
    Fixed(QuantumRange),
}

/// An output that an entry is lent.
pub struct Lent {
    /// What it needs for each job.
    pub bytes_per_job: usize,
    /// The most that calls lend.
    pub longest: usize,
}

/// What an entry on jobs is given, in the order of its input frames: the quantum range and a
/// table's count as numbers; jobs, settings and outputs as blocks. An entry that is given further
/// parts puts them in between.
pub struct Given {
    pub entry: u8,
    pub range: Range,
    pub jobs: Form,
    pub settings: Option<Form>,
    /// Whether the configuration has to be full, by refusal 11.
    pub full: bool,
    pub outputs: &'static [Lent],
}

impl Given {
    /// Whether the entry is to find a configuration itself.
    pub fn is_to_plan(&self) -> bool {
        self.range != Range::None && self.settings.is_none()
    }
}

/// The jobs, the range and the settings of a call before any fault is put in.
pub struct Parts {
    pub jobs: Vec<Job>,
    pub range: QuantumRange,
    pub settings: Vec<Setting>,
}

impl Parts {
    /// The parts of a call on jobs alone.
    pub fn of_jobs(jobs: Vec<Job>, range: QuantumRange) -> Parts {
        Parts {
            jobs,
            range,
            settings: Vec::new(),
        }
    }

    /// The parts of a call on jobs and a configuration of theirs.
    pub fn of_list(list: Configured, range: QuantumRange) -> Parts {
        Parts {
            jobs: list.jobs,
            range,
            settings: list.settings,
        }
    }
}

/// A call on jobs and perhaps on a configuration. It has no faults unless some are put in.
pub struct Call {
    pub given: &'static Given,
    pub low: u8,
    pub high: u8,
    /// The number of jobs before any fault is put in.
    pub jobs: usize,
    pub job_records: Vec<[u8; JOB_BYTES]>,
    /// Whether a job has a delay before any fault is put in.
    pub has_delay: bool,
    /// The length of the job block lent, in bytes.
    pub job_length: usize,
    pub setting_records: Vec<[u8; SETTING_BYTES]>,
    /// The length of the configuration block lent, in bytes.
    pub setting_length: usize,
    /// The count that goes with a table.
    pub count: usize,
    pub output_lengths: Vec<usize>,
}

/// The input frame of an entry's call with accepted parts.
pub fn accepted_input(random: &mut Random, given: &'static Given, parts: &Parts) -> Frame {
    Call::new(random, given, parts).into_input(random)
}

/// A length from a need on: exact, one more, the longest, or any between.
fn sufficient_length(random: &mut Random, need: usize, longest: usize) -> usize {
    match random.below(4) {
        0 => need,
        1 => (need + 1).min(longest),
        2 => longest,
        _ => random.between(need, longest),
    }
}

/// A block of records with a length of its own: what is too much is cut off, what is missing is 0.
fn block_of_records<const BYTES: usize>(records: &[[u8; BYTES]], length: usize) -> Vec<u8> {
    let mut block = records.concat();
    block.resize(length, 0);
    block
}

/// A table that begins with records.
fn table_of_records<const BYTES: usize>(mut table: Vec<u8>, records: &[[u8; BYTES]]) -> Vec<u8> {
    let records = records.concat();
    table[..records.len()].copy_from_slice(&records);
    table
}

impl Call {
    /// The call of an entry with accepted parts, and with outputs that are long enough.
    pub fn new(random: &mut Random, given: &'static Given, parts: &Parts) -> Call {
        let (jobs, settings) = (&parts.jobs, &parts.settings);
        let lengths = given.outputs.iter().map(|output| {
            sufficient_length(random, output.bytes_per_job * jobs.len(), output.longest)
        });
        Call {
            given,
            output_lengths: lengths.collect(),
            low: parts.range.lowest,
            high: parts.range.highest,
            jobs: jobs.len(),
            job_records: jobs.iter().map(record_of_job).collect(),
            has_delay: jobs.iter().any(|job| job.delay != 0),
            job_length: JOB_BYTES * jobs.len(),
            setting_records: settings.iter().map(record_of_setting).collect(),
            setting_length: SETTING_BYTES * settings.len(),
            count: jobs.len(),
        }
    }

    /// Whether the entry is given its jobs as a table rather than as a block.
    pub fn has_job_table(&self) -> bool {
        self.given.jobs == Form::Table
    }

    /// Whether the entry is given its settings as a table rather than as a block.
    pub fn has_setting_table(&self) -> bool {
        self.given.settings == Some(Form::Table)
    }

    /// The call's input frame. A table's entries past the count and the outputs are filled with
    /// bytes that are not 0.
    pub fn into_input(self, random: &mut Random) -> Frame {
        let mut blocks = vec![self.jobs_as_given(random)];
        blocks.extend(self.settings_as_given(random));
        for (output, length) in self.given.outputs.iter().zip(&self.output_lengths) {
            // The whole of it is drawn, so that the next output does not depend on its length.
            let mut bytes = random.filled(output.longest);
            bytes.truncate(*length);
            blocks.push(bytes);
        }
        Frame {
            head: self.given.entry,
            numbers: self.numbers(),
            blocks,
        }
    }

    fn numbers(&self) -> Vec<u16> {
        let mut numbers = Vec::new();
        if self.given.range != Range::None {
            numbers.extend([self.low, self.high].map(u16::from));
        }
        if self.has_job_table() || self.has_setting_table() {
            numbers.push(self.count as u16);
        }
        numbers
    }

    /// The block or the table of jobs. In a table the delays past the count are 0 if the list has
    /// none.
    fn jobs_as_given(&self, random: &mut Random) -> Vec<u8> {
        if !self.has_job_table() {
            return block_of_records(&self.job_records, self.job_length);
        }
        let mut table = random.filled(JOB_BYTES * MOST_JOBS);
        if !self.has_delay {
            for record in table.chunks_exact_mut(JOB_BYTES) {
                record[1] = 0;
            }
        }
        table_of_records(table, &self.job_records)
    }

    /// The block or the table of settings, if the entry is given one.
    fn settings_as_given(&self, random: &mut Random) -> Option<Vec<u8>> {
        Some(match self.given.settings? {
            Form::Block => block_of_records(&self.setting_records, self.setting_length),
            Form::Table => {
                let table = random.filled(SETTING_BYTES * MOST_JOBS);
                table_of_records(table, &self.setting_records)
            }
        })
    }
}
