//! The quanta of a layer: the smallest list that serves it, found by raising quanta.

use crate::same::job::Range;
use crate::same::response::{Iteration, Quanta, Workload};
use crate::same::{contains, MOST_JOBS};

/// A layer of jobs with the set above it and the range of its quanta.
pub struct Layer<'w, I> {
    pub workload: &'w Workload<I>,
    pub range: Range,
    pub set: u8,
    pub above: u8,
}

impl<I: Iteration> Layer<'_, I> {
    /// The bound of the job at a place.
    pub fn bound(&self, quanta: &Quanta, place: usize) -> u16 {
        self.workload.bound(quanta, self.set, self.above, place)
    }

    /// The lowest quantum for each job of the layer, 0 for the others.
    pub fn lowest_quanta(&self) -> Quanta {
        let mut quanta = [0; MOST_JOBS];
        for (place, quantum) in quanta.iter_mut().enumerate() {
            if contains(self.set, place) {
                *quantum = self.range.low;
            }
        }
        quanta
    }

    /// Whether each job of the layer is served with the highest quantum beside the lowest
    /// of the others (000, property 3).
    pub fn is_within_reach(&self, lowest: &Quanta) -> bool {
        (0..MOST_JOBS)
            .filter(|place| contains(self.set, *place))
            .all(|place| {
                let mut quanta = *lowest;
                quanta[place] = self.range.high;
                self.bound(&quanta, place) != 0
            })
    }

    /// Raises the quantum of a job until it is served; false where the highest does not serve it.
    fn raise(&self, quanta: &mut Quanta, place: usize) -> bool {
        while self.bound(quanta, place) == 0 {
            if self.range.high <= quanta[place] {
                return false;
            }
            quanta[place] += 1;
        }
        true
    }

    /// Settles the pending jobs of the layer: the jobs after the first are settled again, from
    /// where they stood, whenever the first rises.
    fn settle(&self, pending: u8, quanta: &mut Quanta) -> bool {
        if pending == 0 {
            return true;
        }
        let first = pending.trailing_zeros() as usize;
        let after = pending & (pending - 1);
        loop {
            if !self.settle(after, quanta) {
                return false;
            }
            let stood = quanta[first];
            if !self.raise(quanta, first) {
                return false;
            }
            if quanta[first] == stood {
                return true;
            }
        }
    }

    /// The smallest quanta that serve the layer.
    pub fn quanta(&self) -> Option<Quanta> {
        let mut quanta = self.lowest_quanta();
        if !self.is_within_reach(&quanta) {
            return None;
        }
        self.settle(self.set, &mut quanta).then_some(quanta)
    }
}
