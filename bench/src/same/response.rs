//! The response-time test.

use crate::same::job::Job;
use crate::same::{contains, MOST_JOBS};

/// The whole processor, in the parts by which utilisation is counted.
const WHOLE: u64 = 1 << 20;

/// The most instances of a job that a bound goes through.
const INSTANCES: u32 = 64;

/// The part of a time up to which a period counts as short.
const SHORT_PART: u64 = 256;

/// The quanta of a layer, at the places of its jobs.
pub type Quanta = [u8; MOST_JOBS];

/// What a set of jobs above takes at least.
#[derive(Clone, Copy)]
pub struct Load {
    /// What the set leaves of the processor.
    spare: u64,
    /// What the delays of its jobs add to their work, in as many parts of a tick.
    carried: u64,
}

impl Load {
    /// The load of no jobs.
    pub const NONE: Load = Load {
        spare: WHOLE,
        carried: 0,
    };

    /// A time that no finish is below where so much demand is beside the set: each job of the set
    /// takes at least its utilisation of the time and of its delay.
    fn earliest(&self, demand: u64) -> u64 {
        (demand * WHOLE + self.carried) / self.spare
    }
}

/// The fixed-point iteration that seeks the least time that equals its demand.
pub trait Iteration {
    /// The plain steps before estimates are made.
    const PLAIN_STEPS: u32;

    /// The load of the set above, which one bound asks for once; that of no jobs where the
    /// iteration does not use it.
    fn load(&self, of_set: impl FnOnce() -> Load) -> Load;

    /// The time from which the iteration of an instance starts, given the instance's own demand,
    /// the load of the set above and the finish of the instance before, 0 for the first one; none
    /// where no time equals its demand.
    fn start(&self, own: u64, load: Load, before: u32) -> Option<u64>;

    /// Whether no instance finishes by its next release because the layer asks for more than is
    /// spare.
    fn runs_on(&self, job: &Job, quantum: u32, others: u32, load: Load) -> bool;

    /// Is told of each evaluation of an interference, with the set.
    fn evaluates(&self, _set: u8) {}
}

/// The iteration with its shortcuts: none where the set above leaves nothing, a start from its load
/// or from the finish of the instance before, whichever is later, and estimates after some plain
/// steps.
pub struct Shortcuts;

impl Iteration for Shortcuts {
    const PLAIN_STEPS: u32 = 4;

    fn load(&self, of_set: impl FnOnce() -> Load) -> Load {
        of_set()
    }

    fn start(&self, own: u64, load: Load, before: u32) -> Option<u64> {
        if load.spare == 0 {
            return None;
        }
        Some(load.earliest(own).max(u64::from(before)))
    }

    fn runs_on(&self, job: &Job, quantum: u32, others: u32, load: Load) -> bool {
        if quantum == 0 {
            return false;
        }
        let held = u64::from(job.period) * u64::from(quantum) * load.spare;
        held < u64::from(job.cost) * u64::from(quantum + others) * WHOLE
    }
}

/// Jobs with the utilisation of each, and the iteration that finds their bounds.
pub struct Workload<I> {
    jobs: [Job; MOST_JOBS],
    utilisations: [u32; MOST_JOBS],
    /// Jobs of which none is served alone below the others: such a job needs no second bound where
    /// the others are above it or beside it.
    unassignable: u8,
    iteration: I,
}

impl<I: Iteration> Workload<I> {
    /// No job is known to be unassignable.
    pub fn plain(jobs: [Job; MOST_JOBS], iteration: I) -> Workload<I> {
        Workload {
            jobs,
            utilisations: jobs.map(|job| utilisation(&job)),
            unassignable: 0,
            iteration,
        }
    }

    /// With the unassignable jobs, for callers that ask for the bounds of many sets.
    pub fn new(jobs: [Job; MOST_JOBS], iteration: I) -> Workload<I> {
        let mut workload = Workload::plain(jobs, iteration);
        workload.unassignable = workload.unassignable_jobs();
        workload
    }

    /// The jobs that are left when no more are dropped.
    fn unassignable_jobs(&self) -> u8 {
        let mut set = u8::MAX;
        loop {
            let kept = self.drop_served(set);
            if kept == set {
                return set;
            }
            set = kept;
        }
    }

    /// The set without the jobs that have no cost or are served alone below the others of it.
    fn drop_served(&self, set: u8) -> u8 {
        let mut kept = set;
        for place in (0..MOST_JOBS).rev() {
            if contains(kept, place) && self.is_dropped(kept, place) {
                kept &= !(1 << place);
            }
        }
        kept
    }

    fn is_dropped(&self, set: u8, place: usize) -> bool {
        let own = 1 << place;
        self.jobs[place].cost == 0 || self.bound(&[0; MOST_JOBS], own, set & !own, place) != 0
    }

    /// The bound of the job at a place, in a layer with a set above: the lesser of its two bounds.
    /// The second is the bound of the job alone with its neighbours above too.
    pub fn bound(&self, quanta: &Quanta, layer: u8, above: u8, place: usize) -> u16 {
        let quantum = u32::from(quanta[place]);
        let others = other_quanta(quanta, layer, place);
        let first = self.run_bound(above, &self.jobs[place], quantum, others);
        let alone = 1 << place;
        let neighbours = layer & !alone;
        let all = above | neighbours;
        if neighbours == 0 || self.is_unassignable(place, all) {
            return first;
        }
        lesser(first, self.bound(quanta, alone, all, place))
    }

    /// Whether a job is one of the unassignable ones and the others of them lie within a set.
    fn is_unassignable(&self, place: usize, set: u8) -> bool {
        contains(self.unassignable, place) && self.unassignable & !(1 << place) & !set == 0
    }

    /// One of the two bounds: the largest response beside a sum of other quanta and below a set. It
    /// and the search for a finish are inlined wherever they are called: a compiler left to itself
    /// inlines a function only while it has one caller.
    #[inline(always)]
    pub fn run_bound(&self, above: u8, job: &Job, quantum: u32, others: u32) -> u16 {
        let load = self.iteration.load(|| self.load(above));
        if self.iteration.runs_on(job, quantum, others, load) {
            return 0;
        }
        self.largest_response(above, load, job, quantum, others)
    }

    /// The largest response up to the first instance that finishes by its next release, the delay
    /// counted in both; 0 where a response is over the deadline, or where the last instance still
    /// runs on.
    fn largest_response(&self, above: u8, load: Load, job: &Job, quantum: u32, others: u32) -> u16 {
        let (cost, period) = (u32::from(job.cost), u32::from(job.period));
        let (deadline, delay) = (u32::from(job.deadline), u32::from(job.delay));
        let mut largest = 0;
        let mut before = 0;
        for instance in 0..INSTANCES {
            let release = instance * period;
            let own = own_demand((instance + 1) * cost, quantum, others);
            let limit = (release + deadline).saturating_sub(delay);
            if u64::from(limit) < own {
                return 0;
            }
            let finish = match self.iteration.start(own, load, before) {
                Some(start) => self.time_from(above, own, limit, start),
                None => 0,
            };
            if finish == 0 {
                return 0;
            }
            largest = largest.max(finish + delay - release);
            if finish + delay <= release + period {
                return largest as u16;
            }
            before = finish;
        }
        0
    }

    /// The first instance whose response is the bound that was found for the same numbers, and its
    /// finish.
    pub fn reaching(
        &self,
        above: u8,
        job: &Job,
        quantum: u32,
        others: u32,
        bound: u16,
    ) -> (u32, u32) {
        let load = self.iteration.load(|| self.load(above));
        let (deadline, delay) = (u32::from(job.deadline), u32::from(job.delay));
        let mut before = 0;
        for instance in 0..INSTANCES {
            let release = instance * u32::from(job.period);
            let own = own_demand(own_work(job, instance), quantum, others);
            let limit = (release + deadline).saturating_sub(delay);
            let finish = match self.iteration.start(own, load, before) {
                Some(start) => self.time_from(above, own, limit, start),
                None => 0,
            };
            if finish + delay == u32::from(bound) + release {
                return (instance, finish);
            }
            before = finish;
        }
        (0, 0)
    }

    /// The least time from a start up to a limit that equals its demand, or 0: some plain steps,
    /// then steps with estimates.
    #[inline(always)]
    fn time_from(&self, above: u8, own: u64, limit: u32, start: u64) -> u32 {
        let mut time = start;
        for _ in 0..I::PLAIN_STEPS {
            if u64::from(limit) < time {
                return 0;
            }
            let next = own + self.interference(above, time as u32);
            if next <= time {
                return if next == time { time as u32 } else { 0 };
            }
            time = next;
        }
        self.far_time(above, own, limit, time)
    }

    /// The same with estimates: between two steps the jobs with short periods count by their load.
    fn far_time(&self, above: u8, own: u64, limit: u32, start: u64) -> u32 {
        let long = above & !self.short_jobs(start / SHORT_PART);
        let short = above & !long;
        let mut load = self.load(short);
        load.spare = load.spare.max(1);
        let mut time = start;
        while time <= u64::from(limit) {
            let part = own + self.interference(long, time as u32);
            let next = part + self.interference(short, time as u32);
            if next <= time {
                return if next == time { time as u32 } else { 0 };
            }
            time = next.max(load.earliest(part));
        }
        0
    }

    /// The jobs with periods up to the longest that counts as short.
    fn short_jobs(&self, longest: u64) -> u8 {
        let mut set = 0;
        for (place, job) in self.jobs.iter().enumerate() {
            if u64::from(job.period) <= longest {
                set |= 1 << place;
            }
        }
        set
    }

    /// The load of a set of jobs.
    fn load(&self, set: u8) -> Load {
        let (mut taken, mut carried) = (0, 0);
        for (place, parts) in self.utilisations.iter().enumerate() {
            if contains(set, place) {
                taken += u64::from(*parts);
                carried += u64::from(self.jobs[place].delay) * u64::from(*parts);
            }
        }
        Load {
            spare: WHOLE.saturating_sub(taken),
            carried,
        }
    }

    /// The work of a set of jobs by a time.
    pub fn interference(&self, above: u8, time: u32) -> u64 {
        self.iteration.evaluates(above);
        let mut sum = 0;
        for (place, job) in self.jobs.iter().enumerate() {
            if contains(above, place) {
                let span = time + u32::from(job.delay);
                sum += u64::from(span.div_ceil(u32::from(job.period))) * u64::from(job.cost);
            }
        }
        sum
    }
}

fn utilisation(job: &Job) -> u32 {
    if job.period == 0 {
        return 0;
    }
    (u64::from(job.cost) * WHOLE / u64::from(job.period)) as u32
}

/// The lesser of two bounds, one that is 0 giving way to the other.
pub fn lesser(first: u16, second: u16) -> u16 {
    match (first, second) {
        (0, _) => second,
        (_, 0) => first,
        _ => first.min(second),
    }
}

/// The work of an instance and of those before it.
pub fn own_work(job: &Job, instance: u32) -> u32 {
    (instance + 1) * u32::from(job.cost)
}

/// The own demand of a job for some work of it: the work, and the quanta of the others once for each
/// cycle of it.
pub fn own_demand(work: u32, quantum: u32, others: u32) -> u64 {
    let cycles = match quantum {
        0 => 0,
        _ => work.div_ceil(quantum),
    };
    u64::from(work) + u64::from(cycles) * u64::from(others)
}

/// The sum of the quanta of a layer's other jobs.
pub fn other_quanta(quanta: &Quanta, layer: u8, place: usize) -> u32 {
    let others = layer & !(1 << place);
    let mut sum = 0;
    for (other, quantum) in quanta.iter().enumerate() {
        if contains(others, other) {
            sum += u32::from(*quantum);
        }
    }
    sum
}
