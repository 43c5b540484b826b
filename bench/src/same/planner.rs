//! The planner.

use crate::same::job::{question, Jobs, Range};
use crate::same::marker::{write_bounds, Bounds, BOUND_SIZE};
use crate::same::order::Order;
use crate::same::quanta::Layer;
use crate::same::response::{Iteration, Quanta, Shortcuts, Workload};
use crate::same::setting::{write_settings, Setting, Settings, SETTING_SIZE};
use crate::same::{contains, first_jobs, word, Refusal, MOST_JOBS};

/// What a level asks: the jobs with their range of quanta, the order of their sets, and those of
/// them not yet placed.
pub struct Question<'w, I> {
    pub workload: &'w Workload<I>,
    pub range: Range,
    pub order: &'w Order,
    pub left: u8,
}

/// The set that a level takes, with its quanta.
pub struct Taken {
    pub set: u8,
    pub quanta: Quanta,
}

/// The search for the set that a level takes.
pub trait Search {
    /// The set, if some set of the jobs left can be taken, and the number of sets considered.
    fn take<I: Iteration>(&self, question: &Question<I>) -> (Option<Taken>, u16);
}

/// The search through the subsets in their order, the quanta found by raising.
pub struct Raising;

impl Search for Raising {
    fn take<I: Iteration>(&self, question: &Question<I>) -> (Option<Taken>, u16) {
        question.take_first(Layer::quanta)
    }
}

impl<'w, I: Iteration> Question<'w, I> {
    /// The layer of a set with another above.
    pub fn layer(&self, set: u8, above: u8) -> Layer<'w, I> {
        Layer {
            workload: self.workload,
            range: self.range,
            set,
            above,
        }
    }

    /// The first subset of the jobs left that has quanta with the rest above, and the number of
    /// sets considered. The sets of a size are put in order when it is reached.
    pub fn take_first(
        &self,
        quanta_of: impl Fn(&Layer<'w, I>) -> Option<Quanta>,
    ) -> (Option<Taken>, u16) {
        let mut considered = 0;
        let alone = self.order.singles.within(self.left);
        let mut taken = self.take_among(alone, &mut considered, &quanta_of);
        let mut size = 1;
        while taken.is_none() && size < self.left.count_ones() as usize {
            size += 1;
            let sets = self.order.subsets(self.left, size);
            taken = self.take_among(sets.within(self.left), &mut considered, &quanta_of);
        }
        (taken, considered)
    }

    /// The first of some subsets of the jobs left that has quanta; each that is tried is counted.
    fn take_among(
        &self,
        sets: impl Iterator<Item = u8>,
        considered: &mut u16,
        quanta_of: &impl Fn(&Layer<'w, I>) -> Option<Quanta>,
    ) -> Option<Taken> {
        for set in sets {
            *considered += 1;
            if let Some(quanta) = quanta_of(&self.layer(set, self.left & !set)) {
                return Some(Taken { set, quanta });
            }
        }
        None
    }
}

/// The plan so far.
struct Progress {
    left: u8,
    considered: u16,
    settings: Settings,
    bounds: Bounds,
}

impl Progress {
    fn new(jobs: &Jobs) -> Progress {
        Progress {
            left: first_jobs(jobs.count),
            considered: 0,
            settings: jobs.table.map(|job| Setting {
                id: job.id,
                ..Setting::default()
            }),
            bounds: [0; MOST_JOBS],
        }
    }

    /// The taken set takes the level.
    fn place<I: Iteration>(&mut self, workload: &Workload<I>, level: usize, taken: &Taken) {
        let above = self.left & !taken.set;
        let size = taken.set.count_ones();
        for place in (0..MOST_JOBS).filter(|place| contains(taken.set, *place)) {
            let id = self.settings[place].id;
            self.settings[place] = Setting::in_layer(id, level as u8, size, taken.quanta[place]);
            self.bounds[place] = workload.bound(&taken.quanta, taken.set, above, place);
        }
        self.left = above;
    }
}

fn plan_levels<I: Iteration>(
    jobs: &Jobs,
    range: Range,
    workload: &Workload<I>,
    search: impl Search,
) -> Progress {
    let order = Order::new(jobs);
    let mut progress = Progress::new(jobs);
    for level in (1..=jobs.count).rev() {
        let (taken, considered) = search.take(&Question {
            workload,
            range,
            order: &order,
            left: progress.left,
        });
        progress.considered += considered;
        let Some(taken) = taken else {
            break;
        };
        progress.place(workload, level, &taken);
    }
    progress
}

/// An iteration and a search: what one planner differs in from another.
pub struct Method<I, S>(pub I, pub S);

impl<I: Iteration, S: Search> Method<I, S> {
    /// Plans a job block for a range of quanta: the answer's word.
    pub fn plan(
        self,
        block: &[u8],
        low: u8,
        high: u8,
        configuration: &mut [u8],
        bounds: &mut [u8],
    ) -> u32 {
        let planned = question(block, low, high)
            .and_then(|(jobs, range)| self.put_plan(&jobs, range, configuration, bounds));
        word(planned)
    }

    /// Plans jobs for a range of quanta: the answer's value.
    pub fn put_plan(
        self,
        jobs: &Jobs,
        range: Range,
        configuration: &mut [u8],
        bounds: &mut [u8],
    ) -> Result<u32, Refusal> {
        let Method(iteration, search) = self;
        let count = jobs.count;
        if configuration.len() < SETTING_SIZE * count || bounds.len() < BOUND_SIZE * count {
            return Err(12);
        }
        let workload = Workload::new(jobs.table, iteration);
        let progress = plan_levels(jobs, range, &workload, search);
        write_settings(&progress.settings[..count], configuration);
        write_bounds(&progress.bounds[..count], bounds);
        let placed = first_jobs(count) & !progress.left;
        Ok(u32::from(placed) | u32::from(progress.considered) << 8)
    }
}

/// Plans a job block by the product's algorithm.
pub fn plan(block: &[u8], low: u8, high: u8, configuration: &mut [u8], bounds: &mut [u8]) -> u32 {
    Method(Shortcuts, Raising).plan(block, low, high, configuration, bounds)
}
