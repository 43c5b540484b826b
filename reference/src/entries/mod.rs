//! The entries, a file each: the entry's number, its row, what its calls are given, and the
//! generator of its cases where it has one of its own. The rows are listed here and nowhere else.

pub mod bounds;
pub mod breakdown;
pub mod edit;
pub mod faults;
pub mod from_kernel;
pub mod gate_mark;
pub mod gate_plan;
pub mod key;
pub mod mark;
pub mod plan;
pub mod read_configuration;
pub mod read_jobs;
pub mod same_bytes;
pub mod to_kernel;
pub mod write_configuration;
pub mod write_jobs;

pub use bounds::BOUNDS;
pub use breakdown::BREAKDOWN;
pub use edit::EDIT;
pub use from_kernel::FROM_KERNEL;
pub use gate_mark::GATE_MARK;
pub use gate_plan::GATE_PLAN;
pub use key::KEY;
pub use mark::MARK;
pub use plan::PLAN;
pub use read_configuration::READ_CONFIGURATION;
pub use read_jobs::READ_JOBS;
pub use same_bytes::SAME_BYTES;
pub use to_kernel::TO_KERNEL;
pub use write_configuration::WRITE_CONFIGURATION;
pub use write_jobs::WRITE_JOBS;

use crate::frames::Frame;
use crate::jobs::{jobs_of_records, Job};
use crate::refusal::Refusal;
use faults::Fault;

/// All that is to be known of an entry. The functions answer none for an input frame that has not
/// the numbers and blocks that the entry is given.
pub struct Entry {
    /// The number in an input frame.
    pub number: u8,
    pub name: &'static str,
    /// Makes the call of an input frame and answers its output frame.
    pub answer: fn(&Frame) -> Option<Frame>,
    /// All faults present in the call.
    pub faults: fn(&Frame) -> Option<Vec<Fault>>,
    /// The jobs of a call that is accepted, whether a block, a table or a slice holds them.
    pub jobs: fn(&Frame) -> Option<Vec<Job>>,
}

/// The entries by rising numbers.
pub const ENTRIES: &[&Entry] = &[
    &read_jobs::ENTRY,
    &write_jobs::ENTRY,
    &read_configuration::ENTRY,
    &write_configuration::ENTRY,
    &bounds::ENTRY,
    &mark::ENTRY,
    &plan::ENTRY,
    &same_bytes::ENTRY,
    &edit::ENTRY,
    &key::ENTRY,
    &to_kernel::ENTRY,
    &from_kernel::ENTRY,
    &breakdown::ENTRY,
    &gate_plan::ENTRY,
    &gate_mark::ENTRY,
];

/// The place of the entry with a number among the entries.
pub fn place_of_entry(number: u8) -> Option<usize> {
    ENTRIES.iter().position(|entry| entry.number == number)
}

/// The entry of an input frame.
fn entry_of(input: &Frame) -> Option<&'static Entry> {
    place_of_entry(input.head).map(|place| ENTRIES[place])
}

/// The output frame of an input frame; none if there is no such entry or it is given other parts.
pub fn answer(input: &Frame) -> Option<Frame> {
    (entry_of(input)?.answer)(input)
}

/// All faults present in the call of an input frame; none if it has no answer.
pub fn faults_present(input: &Frame) -> Option<Vec<Fault>> {
    (entry_of(input)?.faults)(input)
}

/// The jobs of an input frame whose call is accepted; none if it has no answer.
pub fn jobs_of_call(input: &Frame) -> Option<Vec<Job>> {
    (entry_of(input)?.jobs)(input)
}

/// The output frame of a call: its numbers or its refusal, and its blocks after the call.
fn output_frame<const NUMBERS: usize, const BLOCKS: usize>(
    answer: Result<[u16; NUMBERS], Refusal>,
    blocks: [Vec<u8>; BLOCKS],
) -> Frame {
    let (head, numbers) = match answer {
        Ok(numbers) => (0, numbers.to_vec()),
        Err(refusal) => (refusal.number(), Vec::new()),
    };
    Frame {
        head,
        numbers,
        blocks: blocks.to_vec(),
    }
}

/// A function that is given a job block, a range and a configuration block, and writes an output.
type WriteConfigured = fn(&[u8], u8, u8, &[u8], &mut [u8]) -> Result<(), Refusal>;

/// The output frame of a call of such a function, which answers no numbers.
fn answer_of_configured(input: &Frame, write: WriteConfigured) -> Option<Frame> {
    let ([lowest, highest], [jobs, configuration, output]) = input.parts()?;
    let mut output = output.to_vec();
    let answer = write(jobs, lowest, highest, configuration, &mut output);
    Some(output_frame(answer.map(|()| []), [output]))
}

/// A number of a frame that the call takes in one byte.
fn byte(number: u16) -> Option<u8> {
    u8::try_from(number).ok()
}

/// A block that is a table or a slice, which has whole records of so many bytes.
fn whole_records(block: &[u8], bytes: usize) -> Option<&[u8]> {
    block.len().is_multiple_of(bytes).then_some(block)
}

/// The jobs of an input frame's first block.
fn jobs_of_first_block(input: &Frame) -> Option<Vec<Job>> {
    input.blocks.first().map(|block| jobs_of_records(block))
}
