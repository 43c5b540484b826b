//! The planner that enumerates quanta lists with the pruning of Audsley-RR-FPP* (000, section 4.2).
//! The response-time test is by plain fixed-point iteration, as 000 has it.

use crate::plain::Plain;
use crate::same::planner::{Method, Question, Search, Taken};
use crate::same::quanta::Layer;
use crate::same::response::{Iteration, Quanta};
use crate::same::{contains, MOST_JOBS};

/// The jobs that are members of a set.
fn members(set: u8) -> impl Iterator<Item = usize> {
    (0..MOST_JOBS).filter(move |place| contains(set, *place))
}

impl<I: Iteration> Layer<'_, I> {
    /// The quantum-search-tree, depth first: the jobs without a quantum yet have the lowest one,
    /// and a vertex is left where a job with a quantum is not served.
    fn enumerate(&self, assigned: u8, quanta: &mut Quanta) -> bool {
        let pending = self.set & !assigned;
        if pending == 0 {
            return true;
        }
        let first = pending.trailing_zeros() as usize;
        let assigned = assigned | 1 << first;
        for quantum in self.range.low..=self.range.high {
            quanta[first] = quantum;
            let served = members(assigned).all(|place| self.bound(quanta, place) != 0);
            if served && self.enumerate(assigned, quanta) {
                return true;
            }
        }
        quanta[first] = self.range.low;
        false
    }

    /// Every list in order, until one serves the layer.
    fn enumerate_whole(&self, assigned: u8, quanta: &mut Quanta) -> bool {
        let pending = self.set & !assigned;
        if pending == 0 {
            return members(self.set).all(|place| self.bound(quanta, place) != 0);
        }
        let first = pending.trailing_zeros() as usize;
        for quantum in self.range.low..=self.range.high {
            quanta[first] = quantum;
            if self.enumerate_whole(assigned | 1 << first, quanta) {
                return true;
            }
        }
        quanta[first] = self.range.low;
        false
    }

    /// The first quanta list that serves the layer, with property 3 of 000 alone as pruning.
    fn first_quanta_whole(&self) -> Option<Quanta> {
        let mut quanta = self.lowest_quanta();
        if !self.is_within_reach(&quanta) {
            return None;
        }
        self.enumerate_whole(0, &mut quanta).then_some(quanta)
    }

    /// The first quanta list that serves the layer.
    fn first_quanta(&self) -> Option<Quanta> {
        let mut quanta = self.lowest_quanta();
        if !self.is_within_reach(&quanta) {
            return None;
        }
        self.enumerate(0, &mut quanta).then_some(quanta)
    }
}

/// The search through the subsets in the product's order, the quanta lists enumerated.
pub struct InOrder;

impl Search for InOrder {
    fn take<I: Iteration>(&self, question: &Question<I>) -> (Option<Taken>, u16) {
        question.take_first(Layer::first_quanta)
    }
}

/// The same, every quanta list of a set that property 3 leaves.
pub struct WholeLists;

impl Search for WholeLists {
    fn take<I: Iteration>(&self, question: &Question<I>) -> (Option<Taken>, u16) {
        question.take_first(Layer::first_quanta_whole)
    }
}

/// The search of 000: the priority-search-tree, depth first.
pub struct DepthFirst;

impl Search for DepthFirst {
    fn take<I: Iteration>(&self, question: &Question<I>) -> (Option<Taken>, u16) {
        let root = Vertex {
            set: 0,
            above: 0,
            open: question.left,
        };
        let mut considered = 0;
        let taken = root.explore(question, &mut considered);
        (taken, considered)
    }
}

/// A vertex of the priority-search-tree: the jobs that have the priority level, the jobs above it
/// and the jobs for which no choice has been made.
struct Vertex {
    set: u8,
    above: u8,
    open: u8,
}

impl Vertex {
    /// A vertex is left where a job that has the level is not served whatever the quanta, the jobs
    /// without a choice being below. Each leaf that is reached counts as a set considered.
    fn explore<I: Iteration>(&self, question: &Question<I>, considered: &mut u16) -> Option<Taken> {
        let Vertex { set, above, open } = *self;
        let layer = question.layer(set, above);
        if open == 0 {
            if set == 0 {
                return None;
            }
            *considered += 1;
            return layer.first_quanta().map(|quanta| Taken { set, quanta });
        }
        if !layer.is_within_reach(&layer.lowest_quanta()) {
            return None;
        }
        let job = open & open.wrapping_neg();
        let open = open & !job;
        let equal = Vertex {
            set: set | job,
            above,
            open,
        };
        let greater = Vertex {
            set,
            above: above | job,
            open,
        };
        equal
            .explore(question, considered)
            .or_else(|| greater.explore(question, considered))
    }
}

/// Plans a job block, the sets in the product's order.
pub fn plan_in_order(
    block: &[u8],
    low: u8,
    high: u8,
    configuration: &mut [u8],
    bounds: &mut [u8],
) -> u32 {
    Method(Plain, InOrder).plan(block, low, high, configuration, bounds)
}

/// Plans a job block, the sets in the product's order and their quanta lists whole.
pub fn plan_whole_lists(
    block: &[u8],
    low: u8,
    high: u8,
    configuration: &mut [u8],
    bounds: &mut [u8],
) -> u32 {
    Method(Plain, WholeLists).plan(block, low, high, configuration, bounds)
}

/// Plans a job block, the sets depth first.
pub fn plan_depth_first(
    block: &[u8],
    low: u8,
    high: u8,
    configuration: &mut [u8],
    bounds: &mut [u8],
) -> u32 {
    Method(Plain, DepthFirst).plan(block, low, high, configuration, bounds)
}
