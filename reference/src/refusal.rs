//! The reasons a call is turned down, each with its number, and the test for refusal 12.

/// "Why a call is turned down": one case for each numbered line, whose value is the line's number.
#[derive(Clone, Copy, Debug, PartialEq, Eq)]
#[repr(u8)]
pub enum Refusal {
    /// "The job block is empty, over 64 bytes or not a multiple of 8, or a table has 0 or more
    /// than 8 jobs."
    JobCount = 1,
    /// "A job's id is 0"; by E4 it "concerns the id alone".
    JobIdentity = 2,
    /// "A job's id is not above the one before."
    JobOrder = 3,
    /// "The place to edit is not below the number of jobs (the first place is 0)."
    EditPlace = 4,
    /// "A C is 0, a C is above its D", "or a T is above 60,000", and by E1 "D above 60,000 and C
    /// above T".
    JobTimes = 5,
    /// "The lowest quantum is 0 or above the highest, or the highest is above 64."
    QuantumRange = 6,
    /// "The configuration block's length is not 4n, or a table of configuration entries has not n
    /// of them."
    ConfigurationCount = 7,
    /// "Its ids are not the jobs' ids in order."
    ConfigurationIdentity = 8,
    /// "A record has none of the three shapes above."
    RecordShape = 9,
    /// "A policy 1 job shares its level or a policy 2 job is alone on its level."
    LevelSharing = 10,
    /// "The marker finds a job not placed."
    JobNotPlaced = 11,
    /// "A lent output is shorter than needed."
    OutputLength = 12,
    /// By E5 "the lowest priority is above the highest or the two span fewer than n values".
    PriorityRange = 13,
    /// By E5 "a kernel priority is outside the top n values".
    KernelPriority = 14,
    /// By E8 "the gate's entry got more than four jobs or a highest quantum above 16".
    GateLimits = 15,
}

/// All refusals in the order in which they are sought: "Each number is sought through all records
/// before the next is tried." By E5 13 comes "after 6" and 14 "after 8", and by E8 15 "after 6". No
/// entry has both 13 and 15.
pub const REFUSALS: &[Refusal] = &[
    Refusal::JobCount,
    Refusal::JobIdentity,
    Refusal::JobOrder,
    Refusal::EditPlace,
    Refusal::JobTimes,
    Refusal::QuantumRange,
    Refusal::PriorityRange,
    Refusal::GateLimits,
    Refusal::ConfigurationCount,
    Refusal::ConfigurationIdentity,
    Refusal::KernelPriority,
    Refusal::RecordShape,
    Refusal::LevelSharing,
    Refusal::JobNotPlaced,
    Refusal::OutputLength,
];

impl Refusal {
    /// "A refusal returns its number alone."
    pub fn number(self) -> u8 {
        self as u8
    }

    /// How many refusals are sought before this one.
    pub fn place(self) -> usize {
        let place = REFUSALS.iter().position(|refusal| *refusal == self);
        place.expect("all refusals are sought")
    }
}

/// Refusal 12: "A lent output is shorter than needed; bytes past the needed part always stay."
pub fn judge_output(output: &[u8], need: usize) -> Result<(), Refusal> {
    if output.len() < need {
        return Err(Refusal::OutputLength);
    }
    Ok(())
}
