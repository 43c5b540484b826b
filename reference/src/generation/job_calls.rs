//! Calls on jobs and configurations, accepted ones and ones with faults: what the kinds of cases
//! have in common.

use crate::configuration::QuantumRange;
use crate::entries::faults_present;
use crate::frames::Frame;
use crate::generation::call::{Call, Given, Parts, Range};
use crate::generation::job_faults::{faults_among, put_job_faults, BadTimes};
use crate::generation::lists::{give_ids, heavy, light, near_full, range, small};
use crate::generation::plans::{affordable, ListAndRange};
use crate::generation::random::Random;
use crate::generation::setting_faults::put_setting_faults;
use crate::jobs::{jobs_of_records, Job, MOST_JOBS};

/// The calls of one entry in a round.
pub struct Calls {
    pub given: &'static Given,
    /// Of ten calls, so many are accepted.
    pub accepted: usize,
    /// The refusals that the other calls have in turn.
    pub refusals: &'static [u8],
}

/// A call that is asked for.
pub struct Asked {
    pub given: &'static Given,
    /// How many calls of its entry come before it.
    pub turn: usize,
    /// The faults to put in.
    pub faults: Vec<u8>,
}

/// How the lists of a kind of cases are drawn.
pub struct ListRule {
    /// A list of so many jobs.
    pub any: fn(&mut Random, usize) -> Vec<Job>,
    /// So many jobs with a configuration of theirs, and a range.
    pub configured: fn(&mut Random, &Asked, usize) -> Parts,
    /// A list and a range for the planner, from the turn, the number of jobs and a range to keep.
    pub planned: fn(&mut Random, usize, usize, Option<QuantumRange>) -> ListAndRange,
}

/// How the calls of a kind of cases are drawn.
pub struct CallRule {
    pub lists: fn(&mut Random) -> &'static ListRule,
    pub bad_times: BadTimes,
}

/// The faults to put into a call: none for so many of ten calls, else one, or one with later ones.
fn chosen_faults(random: &mut Random, turn: usize, calls: &Calls) -> Vec<u8> {
    let Calls {
        accepted, refusals, ..
    } = *calls;
    if turn % 10 < accepted {
        return Vec::new();
    }
    let refused = turn / 10 * (10 - accepted) + turn % 10 - accepted;
    let first = refusals[refused % refusals.len()];
    let mut faults = vec![first];
    let later: Vec<u8> = refusals
        .iter()
        .copied()
        .filter(|other| *other > first)
        .collect();
    if !later.is_empty() && !random.once_in(3) {
        for _ in 0..random.between(1, 2) {
            faults.push(random.choose(&later));
        }
    }
    faults.sort_unstable();
    faults.dedup();
    faults
}

/// The faults of the call that has this turn: each of an entry's refusals, in the order in which
/// they are sought, alone and with each later one, all in turn.
pub fn faults_in_turn(refusals: &[u8], turn: usize) -> Vec<u8> {
    let mut choices = Vec::new();
    for (place, first) in refusals.iter().enumerate() {
        choices.push(vec![*first]);
        let later = refusals[place + 1..].iter();
        choices.extend(later.map(|later| vec![*first, *later]));
    }
    choices[turn % choices.len()].clone()
}

impl Asked {
    /// The fewest jobs that leave each fault in records a record of its own.
    pub fn least_jobs(&self) -> usize {
        match faults_among(&self.faults, &[2, 3, 5, 8, 9, 10, 11, 14]).len() {
            0 => 1,
            1 => 2,
            more => more,
        }
    }

    /// A number of jobs that leaves each fault in records a record of its own.
    pub fn job_count(&self, random: &mut Random) -> usize {
        random.between(self.least_jobs(), MOST_JOBS)
    }

    /// Whether the configuration is to be full: where it has to be, it is unless refusal 11 is
    /// wanted, and elsewhere as it is drawn.
    pub fn is_full(&self, random: &mut Random, elsewhere: fn(&mut Random) -> bool) -> bool {
        if self.given.full {
            !self.faults.contains(&11)
        } else {
            elsewhere(random)
        }
    }
}

impl ListRule {
    /// The parts of a call before any fault is put in.
    fn parts(&self, random: &mut Random, asked: &Asked) -> Parts {
        let count = asked.job_count(random);
        if asked.given.settings.is_some() {
            return (self.configured)(random, asked, count);
        }
        let fixed = match asked.given.range {
            Range::Fixed(range) => Some(range),
            Range::None | Range::Any => None,
        };
        if asked.given.is_to_plan() && asked.faults.is_empty() {
            let (jobs, range) = (self.planned)(random, asked.turn, count, fixed);
            return Parts::of_jobs(jobs, range);
        }
        let range = fixed.unwrap_or_else(|| range(random));
        Parts::of_jobs((self.any)(random, count), range)
    }
}

/// A list of any kind, without regard to what the planner makes of it.
pub fn any_list(random: &mut Random, count: usize) -> Vec<Job> {
    let mut jobs = match random.below(4) {
        0 => light(random, count),
        1 => near_full(random, count),
        2 => heavy(random, count),
        _ => small(random, count),
    };
    give_ids(random, &mut jobs);
    jobs
}

/// The call that is asked for, with these parts and the faults of its jobs alone.
pub fn call_with_job_faults(
    random: &mut Random,
    asked: &Asked,
    parts: &Parts,
    bad_times: BadTimes,
) -> Call {
    let mut call = Call::new(random, asked.given, parts);
    put_job_faults(random, &mut call, &asked.faults, bad_times);
    // The configuration keeps to the jobs' ids, so that a fault in an id is not two faults.
    for (setting, job) in call.setting_records.iter_mut().zip(&call.job_records) {
        setting[0] = job[0];
    }
    call
}

/// The input of the call that is asked for, with these parts and all its faults.
pub fn input_with_faults(
    random: &mut Random,
    asked: &Asked,
    parts: &Parts,
    bad_times: BadTimes,
) -> Frame {
    let mut call = call_with_job_faults(random, asked, parts, bad_times);
    put_setting_faults(random, &mut call, &asked.faults);
    call.into_input(random)
}

/// Gives a call that is to find a configuration a range that the search affords, if it has no
/// fault. The one fault meant may be a deadline one above its period, or a delay, which are
/// accepted.
fn make_affordable(input: &mut Frame, range: QuantumRange) {
    if faults_present(input).is_some_and(|faults| faults.is_empty()) {
        let jobs = jobs_of_records(&input.blocks[0]);
        input.numbers[1] = u16::from(affordable(&jobs, range).0.highest);
    }
}

/// The call that is the `turn`-th of its entry, counted from 0.
pub fn job_call(random: &mut Random, turn: usize, rule: &CallRule, calls: &Calls) -> Frame {
    let asked = Asked {
        given: calls.given,
        turn,
        faults: chosen_faults(random, turn, calls),
    };
    let parts = (rule.lists)(random).parts(random, &asked);
    let mut input = input_with_faults(random, &asked, &parts, rule.bad_times);
    let may_be_narrowed = asked.given.is_to_plan() && asked.given.range == Range::Any;
    if may_be_narrowed && !asked.faults.is_empty() {
        make_affordable(&mut input, parts.range);
    }
    input
}
