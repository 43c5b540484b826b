//! Where the ticks of the bounds of a configuration go.

use crate::same::job::{Job, Jobs};
use crate::same::marker::{layer_and_above, read};
use crate::same::response::{
    lesser, other_quanta, own_demand, own_work, Quanta, Shortcuts, Workload,
};
use crate::same::setting::Settings;
use crate::same::{word, Refusal};

/// The size of the parts of a bound, in bytes.
pub const PARTS_SIZE: usize = 22;

/// The parts of a bound. All are 0 where the bound is.
#[derive(Clone, Copy, Default)]
struct Parts {
    /// The first instance that reaches the bound.
    instance: u8,
    /// Which of the two bounds it is.
    which: u8,
    /// Own work, the layer's share, work from above, the delay, and the release that is taken off.
    amounts: [u32; 5],
}

impl Parts {
    /// The parts of the bound of the job at a place, in a layer with a set above. The instance is
    /// sought again from the bound that was found.
    fn of_job(
        workload: &Workload<Shortcuts>,
        quanta: &Quanta,
        (layer, above): (u8, u8),
        (job, place): (&Job, usize),
    ) -> Parts {
        let (quantum, others) = (u32::from(quanta[place]), other_quanta(quanta, layer, place));
        let neighbours = layer & !(1 << place);
        let all = above | neighbours;
        let first = workload.run_bound(above, job, quantum, others);
        let second = match neighbours {
            0 => 0,
            _ => workload.run_bound(all, job, quantum, 0),
        };
        let bound = lesser(first, second);
        if bound == 0 {
            return Parts::default();
        }
        if bound == first {
            let (instance, finish) = workload.reaching(above, job, quantum, others, bound);
            let work = own_work(job, instance);
            let share = own_demand(work, quantum, others) - u64::from(work);
            return Parts::at(
                job,
                instance,
                1,
                [share, workload.interference(above, finish)],
            );
        }
        let (instance, finish) = workload.reaching(all, job, quantum, 0, bound);
        let work = [neighbours, above].map(|set| workload.interference(set, finish));
        Parts::at(job, instance, 2, work)
    }

    /// The parts at an instance, with the layer's share and the work from above.
    fn at(job: &Job, instance: u32, which: u8, [share, from_above]: [u64; 2]) -> Parts {
        let (delay, taken_off) = (u32::from(job.delay), instance * u32::from(job.period));
        Parts {
            instance: instance as u8,
            which,
            amounts: [
                own_work(job, instance),
                share as u32,
                from_above as u32,
                delay,
                taken_off,
            ],
        }
    }

    /// Writes the parts to a record.
    fn write(&self, record: &mut [u8]) {
        record[0] = self.instance;
        record[1] = self.which;
        for (bytes, amount) in record[2..].chunks_exact_mut(4).zip(self.amounts) {
            bytes.copy_from_slice(&amount.to_be_bytes());
        }
    }
}

/// Writes the parts of the bounds of a configuration.
fn put_parts(jobs: &Jobs, settings: &Settings, output: &mut [u8]) -> Result<u32, Refusal> {
    if output.len() < PARTS_SIZE * jobs.count {
        return Err(12);
    }
    let workload = Workload::plain(jobs.table, Shortcuts);
    let quanta = settings.map(|setting| setting.quantum);
    let settings = &settings[..jobs.count];
    let records = output.chunks_exact_mut(PARTS_SIZE);
    for ((place, job), record) in jobs.listed().iter().enumerate().zip(records) {
        let parts = match layer_and_above(settings, place) {
            Some(sets) => Parts::of_job(&workload, &quanta, sets, (job, place)),
            None => Parts::default(),
        };
        parts.write(record);
    }
    Ok(0)
}

/// The parts of the bounds of a configuration block, full or not.
pub fn breakdown(block: &[u8], low: u8, high: u8, configuration: &[u8], output: &mut [u8]) -> u32 {
    let done = read(block, low, high, configuration)
        .and_then(|(jobs, settings)| put_parts(&jobs, &settings, output));
    word(done)
}
