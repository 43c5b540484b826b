//! The exam desk's edit of one job in a lent table.

use crate::jobs::{judge_table_count, judge_times, Job};
use crate::refusal::Refusal;

/// Entry 9: "C, T and D of that entry change, its id and the other entries stay. This call checks
/// only refusals 1 (on the table's count), 4 and 5; entries it doesn't edit are not judged." The
/// lent table carries J, and "an edit keeps it".
pub fn edit(
    jobs: &mut [Job],
    place: usize,
    cost: u16,
    period: u16,
    deadline: u16,
) -> Result<(), Refusal> {
    judge_table_count(jobs.len())?;
    if place >= jobs.len() {
        return Err(Refusal::EditPlace);
    }
    let edited = Job {
        cost,
        period,
        deadline,
        ..jobs[place]
    };
    judge_times(&[edited])?;
    jobs[place] = edited;
    Ok(())
}
