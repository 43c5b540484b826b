//! The product's algorithm written in Rust: the same blocks, the same response-time test with its
//! shortcuts, the same search for quanta and the same order of sets.

pub mod breakdown;
pub mod gate;
pub mod job;
pub mod kernel;
pub mod marker;
pub mod order;
pub mod planner;
pub mod quanta;
pub mod response;
pub mod setting;

/// The most jobs of a list.
pub const MOST_JOBS: usize = 8;

/// The number by which a call is turned down.
pub type Refusal = u8;

/// The word that a call answers: the refusal's number, or the value above a zero byte.
pub fn word(answer: Result<u32, Refusal>) -> u32 {
    match answer {
        Ok(value) => value << 8,
        Err(refusal) => u32::from(refusal),
    }
}

/// Whether the job at this place is in the set.
pub fn contains(set: u8, place: usize) -> bool {
    set >> place & 1 == 1
}

/// The set of the first jobs.
pub fn first_jobs(count: usize) -> u8 {
    ((1u16 << count) - 1) as u8
}
