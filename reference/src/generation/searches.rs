//! Searches for the plans of one list with the sets in several orders.

use std::collections::BTreeMap;

use crate::configuration::QuantumRange;
use crate::jobs::Job;
use crate::planner::{Choice, RULES};
use crate::quanta::TooManyLists;
use crate::sets::{whole_set, SetOrder};

/// The most lists of quanta that one search may try. Few are enough for most, and there are many
/// searches.
const MOST_LISTS: u64 = 20_000;

/// What a search for a plan does. Two plans of a list are the same exactly if the steps of their
/// searches are: the level of a set taken follows from its place among them, its quanta and bounds
/// from the set and R.
#[derive(Clone, Debug, Default, PartialEq, Eq)]
pub struct Steps {
    /// The sets taken, the one of level n first.
    pub taken: Vec<u8>,
    /// "the count of sets considered, summed over levels".
    pub considered: usize,
}

/// The searches of one list in one range. Whether a set of jobs of R can be taken does not depend
/// on the order, so it is found once for all of them.
pub struct Searches<'a> {
    jobs: &'a [Job],
    range: QuantumRange,
    /// By R.
    choices: BTreeMap<u8, Choice<'a>>,
    /// By R and the set.
    can_be_taken: BTreeMap<(u8, u8), bool>,
}

impl<'a> Searches<'a> {
    /// No set is tried yet.
    pub fn new(jobs: &'a [Job], range: QuantumRange) -> Searches<'a> {
        Searches {
            jobs,
            range,
            choices: BTreeMap::new(),
            can_be_taken: BTreeMap::new(),
        }
    }

    /// Whether a set of jobs of R can be taken.
    fn can_be_taken(
        &mut self,
        rest: u8,
        set: u8,
        lists_left: &mut u64,
    ) -> Result<bool, TooManyLists> {
        if let Some(known) = self.can_be_taken.get(&(rest, set)) {
            return Ok(*known);
        }
        let (jobs, range) = (self.jobs, self.range);
        let new_choice = || Choice::new(jobs, range, RULES.bound, rest);
        let choice = self.choices.entry(rest).or_insert_with(new_choice);
        let found = choice.quanta_of_set(set, lists_left)?.is_some();
        self.can_be_taken.insert((rest, set), found);
        Ok(found)
    }

    /// The steps of the search with the sets in an order.
    pub fn steps(&mut self, order: SetOrder) -> Result<Steps, TooManyLists> {
        let mut lists_left = MOST_LISTS;
        let mut steps = Steps::default();
        let mut rest = whole_set(self.jobs);
        let mut sets = order(self.jobs, rest).into_iter();
        while let Some(set) = sets.next() {
            steps.considered += 1;
            if self.can_be_taken(rest, set, &mut lists_left)? {
                steps.taken.push(set);
                rest &= !set;
                sets = order(self.jobs, rest).into_iter();
            }
        }
        Ok(steps)
    }
}
