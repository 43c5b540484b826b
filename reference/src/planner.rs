//! The planner: the first set in the order that can be taken, and the plan.

use std::cell::OnceCell;

use crate::configuration::{
    jobs_and_range, not_placed, put_settings, QuantumRange, Setting, FIFO, ROUND_ROBIN,
    SETTING_BYTES,
};
use crate::jobs::Job;
use crate::quanta::{Layer, TooManyLists};
use crate::refusal::{judge_output, Refusal};
use crate::response_time::{
    bound_by, finish_by_search, put_bounds, run_alone, BoundRule, BOUND_BYTES,
};
use crate::sets::{by_periods, members_of_set, whole_set, SetOrder};

/// The planner's whole answer for accepted jobs and range.
#[derive(Clone, Debug, PartialEq, Eq)]
pub struct Plan {
    /// The configuration, one setting per job in job order.
    pub settings: Vec<Setting>,
    /// "a placed job's bound has R's rest above it"; 0 for a job left.
    pub bounds: Vec<u16>,
    /// "the placed set's number".
    pub placed: u8,
    /// "the count of sets considered, summed over levels".
    pub considered: u16,
}

/// Puts the members of a set on a level, each with its quantum: "A set of one takes policy 1 and
/// quantum 0", and jobs that share a level are all policy 2.
pub fn place(settings: &mut [Setting], members: &[usize], level: u8, quanta: &[u8]) {
    let policy = if members.len() == 1 {
        FIFO
    } else {
        ROUND_ROBIN
    };
    for (member, quantum) in members.iter().zip(quanta) {
        settings[*member].level = level;
        settings[*member].policy = policy;
        settings[*member].quantum = *quantum;
    }
}

/// What a search for a plan goes by.
#[derive(Clone, Copy)]
pub struct Rules {
    pub bound: BoundRule,
    pub order: SetOrder,
}

/// The rules of the papers: a bound is the lesser of the two, and sets go in E7's order.
pub const RULES: Rules = Rules {
    bound: BoundRule::Lesser,
    order: by_periods,
};

/// The choice of a set at one level.
pub struct Choice<'a> {
    jobs: &'a [Job],
    range: QuantumRange,
    bound: BoundRule,
    /// "the set R of jobs not yet placed".
    rest: u8,
    /// Found when the first set of two or more is tried.
    has_second_bound: OnceCell<Vec<bool>>,
}

impl<'a> Choice<'a> {
    /// The choice among the sets of jobs of R.
    pub fn new(jobs: &'a [Job], range: QuantumRange, bound: BoundRule, rest: u8) -> Choice<'a> {
        Choice {
            jobs,
            range,
            bound,
            rest,
            has_second_bound: OnceCell::new(),
        }
    }

    /// The jobs of a set.
    fn jobs_of_set(&self, set: u8) -> Vec<Job> {
        members_of_set(set)
            .iter()
            .map(|index| self.jobs[*index])
            .collect()
    }

    /// By job index, whether a job of R has a second bound that is not 0 in a set of two or more.
    /// Its neighbours count as above, where the rest of R is: in every such set these are all other
    /// jobs of R. By the rule of the first bound alone a second bound counts as 0.
    fn has_second_bound(&self) -> Vec<bool> {
        let mut has_bound = vec![false; self.jobs.len()];
        if self.bound == BoundRule::Lesser {
            for index in members_of_set(self.rest) {
                let others = self.jobs_of_set(self.rest & !(1 << index));
                let run = run_alone(&self.jobs[index], &others, finish_by_search);
                has_bound[index] = run.bound() != 0;
            }
        }
        has_bound
    }

    /// The quanta of a set of one, if its job has a bound that is not 0.
    fn quanta_of_one(&self, set: u8) -> Option<Vec<u8>> {
        let above = self.jobs_of_set(self.rest & !set);
        let mut layer = Layer::new(self.jobs_of_set(set), above, vec![false]);
        layer.serves_single().then(|| vec![0])
    }

    /// The quanta of a set of two or more, if some give each of its jobs a bound that is not 0.
    fn quanta_of_several(
        &self,
        set: u8,
        lists_left: &mut u64,
    ) -> Result<Option<Vec<u8>>, TooManyLists> {
        let has_second_bound = self
            .has_second_bound
            .get_or_init(|| self.has_second_bound());
        let above = self.jobs_of_set(self.rest & !set);
        let members = members_of_set(set).into_iter();
        let of_members = members.map(|index| has_second_bound[index]).collect();
        let mut layer = Layer::new(self.jobs_of_set(set), above, of_members);
        layer.smallest_quanta(self.range, lists_left)
    }

    /// "A set of jobs of R can be taken if it is not empty and some quanta in range give each of
    /// its jobs a bound that is not 0, the set being one layer with the rest of R above and all
    /// other jobs below": the quanta of a set that is not empty, if it can be taken.
    pub fn quanta_of_set(
        &self,
        set: u8,
        lists_left: &mut u64,
    ) -> Result<Option<Vec<u8>>, TooManyLists> {
        match set.count_ones() {
            1 => Ok(self.quanta_of_one(set)),
            _ => self.quanta_of_several(set, lists_left),
        }
    }

    /// "the first set in the order that can be taken is taken": that set and its quanta, if there
    /// is one. Each set tried is counted, so "a taken set counts, those after it don't."
    fn first_set(
        &self,
        order: SetOrder,
        considered: &mut u16,
        lists_left: &mut u64,
    ) -> Result<Option<(u8, Vec<u8>)>, TooManyLists> {
        for set in order(self.jobs, self.rest) {
            *considered += 1;
            if let Some(quanta) = self.quanta_of_set(set, lists_left)? {
                return Ok(Some((set, quanta)));
            }
        }
        Ok(None)
    }
}

/// "It works from level n towards level 1 on the set R of jobs not yet placed"; "The planner stops
/// when R is empty or when no subset can be taken." The level falls by one for each set taken.
/// The search may try at most `most_lists` lists of quanta.
pub fn plan_jobs_within(
    jobs: &[Job],
    range: QuantumRange,
    rules: Rules,
    most_lists: u64,
) -> Result<Plan, TooManyLists> {
    let mut plan = Plan {
        settings: jobs.iter().map(not_placed).collect(),
        bounds: vec![0; jobs.len()],
        placed: 0,
        considered: 0,
    };
    let mut lists_left = most_lists;
    let mut rest = whole_set(jobs);
    let mut level = jobs.len() as u8;
    while rest != 0 {
        let choice = Choice::new(jobs, range, rules.bound, rest);
        let taken = choice.first_set(rules.order, &mut plan.considered, &mut lists_left)?;
        let Some((set, quanta)) = taken else {
            break;
        };
        let members = members_of_set(set);
        place(&mut plan.settings, &members, level, &quanta);
        for member in members {
            plan.bounds[member] = bound_by(rules.bound, jobs, &plan.settings, member);
        }
        plan.placed |= set;
        rest &= !set;
        level -= 1;
    }
    Ok(plan)
}

/// The plan of accepted jobs and range, however many lists of quanta it has to try.
pub fn plan_jobs_by(jobs: &[Job], range: QuantumRange, rules: Rules) -> Plan {
    plan_jobs_within(jobs, range, rules, u64::MAX).expect("no search tries that many lists")
}

/// The plan of accepted jobs and range by the rules of the papers.
pub fn plan_jobs(jobs: &[Job], range: QuantumRange) -> Plan {
    plan_jobs_by(jobs, range, RULES)
}

/// Writes the plan of accepted jobs and range: "It answers with the placed set's number and the
/// count of sets considered"; "It writes 4n bytes of configuration and 2n of bounds".
pub fn write_plan(
    jobs: &[Job],
    range: QuantumRange,
    configuration_output: &mut [u8],
    bounds_output: &mut [u8],
) -> Result<(u8, u16), Refusal> {
    judge_output(configuration_output, SETTING_BYTES * jobs.len())?;
    judge_output(bounds_output, BOUND_BYTES * jobs.len())?;
    let plan = plan_jobs(jobs, range);
    put_settings(&plan.settings, configuration_output);
    put_bounds(&plan.bounds, bounds_output);
    Ok((plan.placed, plan.considered))
}

/// Entry 7: the plan of a job block and a range.
pub fn plan(
    job_block: &[u8],
    lowest: u8,
    highest: u8,
    configuration_output: &mut [u8],
    bounds_output: &mut [u8],
) -> Result<(u8, u16), Refusal> {
    let (jobs, range) = jobs_and_range(job_block, lowest, highest)?;
    write_plan(&jobs, range, configuration_output, bounds_output)
}
