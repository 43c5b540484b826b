//! The quanta of a set of jobs tried as one layer: the lists in their order, and the first list
//! that serves each job of the set.

use crate::configuration::QuantumRange;
use crate::jobs::Job;
use crate::response_time::{round_robin_demand, run_of_job, total_interference};

/// A search gave up because it would have tried more lists than its caller allows.
#[derive(Clone, Copy, Debug, PartialEq, Eq)]
pub struct TooManyLists;

/// The least times that equal a layer's demand plus the interference of the jobs above, for all
/// layer demands at once. Every time is tried once, from 1 on, as far as it is asked for.
struct LeastTimes {
    above: Vec<Job>,
    /// By layer demand, the least of the times tried that fit it; 0 if none of them does. As many
    /// times as it has entries are tried, 0 among them.
    by_demand: Vec<u64>,
}

impl LeastTimes {
    /// No time is tried but 0, which fits no demand.
    fn new(above: Vec<Job>) -> LeastTimes {
        LeastTimes {
            above,
            by_demand: vec![0],
        }
    }

    /// Tries the next time. It fits the one layer demand that is left of it without the
    /// interference. The times rise, so the first one noted for a demand is the least.
    fn try_next(&mut self) {
        let time = self.by_demand.len() as u64;
        self.by_demand.push(0);
        let interference = total_interference(&self.above, time);
        if interference < time {
            let least = &mut self.by_demand[(time - interference) as usize];
            if *least == 0 {
                *least = time;
            }
        }
    }

    /// "its finish is the least t that equals its demand", if there is one up to the latest time.
    /// A time below the layer's demand does not equal it.
    fn finish(&mut self, layer_demand: u64, latest: u64) -> Option<u64> {
        if layer_demand > latest {
            return None;
        }
        let demand = layer_demand as usize;
        loop {
            let least = self.by_demand.get(demand).copied().unwrap_or(0);
            if least != 0 {
                return (least <= latest).then_some(least);
            }
            if self.by_demand.len() as u64 > latest {
                return None;
            }
            self.try_next();
        }
    }
}

/// A set of jobs of R tried as one layer, "with the rest of R above and all other jobs below".
pub struct Layer {
    members: Vec<Job>,
    least_times: LeastTimes,
    /// By member. Quanta play no part in a second bound, so it is the same for every list of them.
    has_second_bound: Vec<bool>,
}

impl Layer {
    /// The layer of its members and of the jobs above, with whether each member's second bound is
    /// not 0.
    pub fn new(members: Vec<Job>, above: Vec<Job>, has_second_bound: Vec<bool>) -> Layer {
        Layer {
            members,
            least_times: LeastTimes::new(above),
            has_second_bound,
        }
    }

    /// Whether a member's first bound is not 0, its layer having this demand on own work.
    fn has_first_bound(&mut self, member: usize, layer_demand: impl Fn(u64) -> u64) -> bool {
        let least_times = &mut self.least_times;
        let run = run_of_job(&self.members[member], layer_demand, |demand, _, latest| {
            least_times.finish(demand, latest)
        });
        run.bound() != 0
    }

    /// Whether the set's only job is served: "A set of one takes policy 1 and quantum 0." It has
    /// the first bound alone.
    pub fn serves_single(&mut self) -> bool {
        self.has_first_bound(0, |own_work| own_work)
    }

    /// Whether a member has "a bound that is not 0" with its own quantum and the sum of the other
    /// quanta. As a bound that is 0 gives way to the other, one of the two is enough.
    fn serves_member(&mut self, member: usize, quantum: u8, other_quanta: u64) -> bool {
        self.has_second_bound[member]
            || self.has_first_bound(member, |own_work| {
                round_robin_demand(own_work, quantum, other_quanta)
            })
    }

    /// Whether a list of quanta gives "each of its jobs a bound that is not 0".
    fn serves(&mut self, quanta: &[u8]) -> bool {
        let total: u64 = quanta.iter().map(|quantum| u64::from(*quantum)).sum();
        for (member, quantum) in quanta.iter().enumerate() {
            if !self.serves_member(member, *quantum, total - u64::from(*quantum)) {
                return false;
            }
        }
        true
    }

    /// Whether some member is not served even with the highest quantum for itself and the lowest
    /// for the others. Then no list serves. Its second bound is 0 whatever the quanta. So is its
    /// first: a larger own quantum never raises the demand on an instance, a larger quantum of
    /// another never lowers it, and a first bound that is not 0 stays so when the demands on the
    /// instances fall, as no instance then finishes later.
    fn is_hopeless(&mut self, range: QuantumRange) -> bool {
        let count = self.members.len();
        let other_quanta = (count as u64 - 1) * u64::from(range.lowest);
        (0..count).any(|member| !self.serves_member(member, range.highest, other_quanta))
    }

    /// "it is the smallest of those lists, compared at the first job where two differ": every list
    /// is tried, in that order, until one serves. Each list tried is taken off `lists_left`.
    pub fn smallest_quanta(
        &mut self,
        range: QuantumRange,
        lists_left: &mut u64,
    ) -> Result<Option<Vec<u8>>, TooManyLists> {
        if self.is_hopeless(range) {
            return Ok(None);
        }
        let mut quanta = vec![range.lowest; self.members.len()];
        loop {
            *lists_left = lists_left.checked_sub(1).ok_or(TooManyLists)?;
            if self.serves(&quanta) {
                return Ok(Some(quanta));
            }
            if !next_quanta_list(&mut quanta, range) {
                return Ok(None);
            }
        }
    }
}

/// Makes the list of quanta that follows, the first job's quantum changing slowest. False after
/// the last list.
pub fn next_quanta_list(quanta: &mut [u8], range: QuantumRange) -> bool {
    for quantum in quanta.iter_mut().rev() {
        if *quantum < range.highest {
            *quantum += 1;
            return true;
        }
        *quantum = range.lowest;
    }
    false
}
