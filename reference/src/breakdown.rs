//! Where the ticks of a bound go: the instance that reaches it, which of the two bounds it is, and
//! the amounts that make it up; and the entry that writes them.

use crate::configuration::{jobs_and_settings, Setting, NOT_PLACED, ROUND_ROBIN};
use crate::jobs::Job;
use crate::refusal::{judge_output, Refusal};
use crate::response_time::{
    finish_by_search, first_run, jobs_above, layer_share, lesser_bound, neighbours, second_run,
    total_interference, FindFinish, Run,
};

/// "Each job, in job order, has 22 bytes".
pub const BREAKDOWN_BYTES: usize = 22;

/// "which of E2's two bounds decided (1 or 2": its number in a record.
pub const FIRST: u8 = 1;
pub const SECOND: u8 = 2;

/// The parts of a bound in the order of their bytes. "A bound of 0 gives zeros": the default.
#[derive(Clone, Copy, Debug, Default, PartialEq, Eq)]
pub struct Breakdown {
    /// "the first instance that reaches the bound".
    pub instance: u8,
    pub decided: u8,
    pub own_work: u32,
    /// "layer share (all its neighbours add in that bound)".
    pub layer_share: u32,
    /// "work from above".
    pub from_above: u32,
    pub delay: u32,
    /// "the j·T taken off".
    pub taken_off: u32,
}

impl Breakdown {
    /// The amounts in the order of their bytes.
    pub fn amounts(&self) -> [u32; 5] {
        [
            self.own_work,
            self.layer_share,
            self.from_above,
            self.delay,
            self.taken_off,
        ]
    }

    /// "The first four amounts less the fifth make the bound exactly". They are at least the fifth,
    /// as no response is below 0, and what is left is a response up to D.
    pub fn bound(&self) -> u16 {
        let [own_work, layer_share, from_above, delay, taken_off] = self.amounts();
        (own_work + layer_share + from_above + delay - taken_off) as u16
    }
}

/// The run whose bound is the bound of a job, with its number; none if the bound is 0. It is the
/// first run "if equal or for policy 1", and a bound of 0 gives way.
pub fn deciding_run(
    jobs: &[Job],
    settings: &[Setting],
    index: usize,
    find: FindFinish,
) -> Option<(u8, Run)> {
    let policy = settings[index].policy;
    if policy == NOT_PLACED {
        return None;
    }
    let first = first_run(jobs, settings, index, find);
    let mut runs = vec![(FIRST, first)];
    if policy == ROUND_ROBIN {
        runs.push((SECOND, second_run(jobs, settings, index, find)));
    }
    let bounds = runs.iter().map(|(_, run)| run.bound());
    let bound = bounds.reduce(lesser_bound).filter(|bound| *bound != 0)?;
    runs.into_iter().find(|(_, run)| run.bound() == bound)
}

/// The parts of the bound of one of a job's two runs, which closes: at the finish of the instance
/// that reaches it, the demand part by part.
pub fn parts_of_run(
    jobs: &[Job],
    settings: &[Setting],
    index: usize,
    (decided, run): (u8, Run),
) -> Breakdown {
    let job = &jobs[index];
    let (instance, finish) = (run.largest_instance, run.largest_finish);
    let own_work = (instance + 1) * u64::from(job.cost);
    let layer_share = match decided {
        FIRST => layer_share(settings, index, own_work),
        _ => total_interference(&neighbours(jobs, settings, index), finish),
    };
    let from_above = total_interference(&jobs_above(jobs, settings, index), finish);
    // The instance is at most 63. Three amounts sum to the finish, which is at most 63·T + D.
    Breakdown {
        instance: instance as u8,
        decided,
        own_work: own_work as u32,
        layer_share: layer_share as u32,
        from_above: from_above as u32,
        delay: u32::from(job.delay),
        taken_off: instance as u32 * u32::from(job.period),
    }
}

/// The parts of a job's bound.
pub fn breakdown_of_job(
    jobs: &[Job],
    settings: &[Setting],
    index: usize,
    find: FindFinish,
) -> Breakdown {
    match deciding_run(jobs, settings, index, find) {
        Some(deciding) => parts_of_run(jobs, settings, index, deciding),
        None => Breakdown::default(),
    }
}

/// The breakdowns of all jobs of a list, in job order.
pub fn breakdowns_of_settings(jobs: &[Job], settings: &[Setting]) -> Vec<Breakdown> {
    (0..jobs.len())
        .map(|index| breakdown_of_job(jobs, settings, index, finish_by_search))
        .collect()
}

/// "one for each of the first two, four for each amount, high byte first".
pub fn record_of_breakdown(breakdown: &Breakdown) -> Vec<u8> {
    let amounts = breakdown.amounts().map(u32::to_be_bytes);
    [
        &[breakdown.instance, breakdown.decided],
        amounts.as_flattened(),
    ]
    .concat()
}

/// The breakdown of a 22-byte record.
fn breakdown_of_record(record: &[u8]) -> Breakdown {
    let amount = |place: usize| {
        let bytes = &record[2 + 4 * place..][..4];
        u32::from_be_bytes(bytes.try_into().expect("an amount has four bytes"))
    };
    Breakdown {
        instance: record[0],
        decided: record[1],
        own_work: amount(0),
        layer_share: amount(1),
        from_above: amount(2),
        delay: amount(3),
        taken_off: amount(4),
    }
}

/// The breakdowns of all whole records of some bytes.
pub fn breakdowns_of_records(bytes: &[u8]) -> Vec<Breakdown> {
    bytes
        .chunks_exact(BREAKDOWN_BYTES)
        .map(breakdown_of_record)
        .collect()
}

/// Entry 13: writes the 22n bytes of the breakdown of a configuration's bounds, full or not.
pub fn breakdown(
    job_block: &[u8],
    lowest: u8,
    highest: u8,
    configuration_block: &[u8],
    output: &mut [u8],
) -> Result<(), Refusal> {
    let (jobs, settings) = jobs_and_settings(job_block, lowest, highest, configuration_block)?;
    let need = BREAKDOWN_BYTES * jobs.len();
    judge_output(output, need)?;
    let records = breakdowns_of_settings(&jobs, &settings);
    let records: Vec<u8> = records.iter().flat_map(record_of_breakdown).collect();
    output[..need].copy_from_slice(&records);
    Ok(())
}
