//! "Within its limits the gate gets exactly the mats' answer, shown once for every limit up to
//! eight": whole outcomes, outputs included, of random calls within limits of every kind.

mod common;

use common::block_of_jobs;
use reference::configuration::{records_of_settings, QuantumRange};
use reference::gate::{mark_within, plan_within, Limits};
use reference::generation::configured::any_configured;
use reference::generation::layers::built;
use reference::generation::lists::{equal, give_ids, small, worked};
use reference::generation::period_lists::RULES_OF_LAYERS;
use reference::generation::random::Random;
use reference::jobs::Job;
use reference::planner::{plan_jobs_within, RULES};
use reference::{gate_mark, gate_plan, mark, plan, Refusal};

/// Limits of the highest quantum.
const QUANTA: [u8; 14] = [1, 2, 3, 4, 8, 15, 16, 17, 18, 31, 32, 48, 63, 64];

/// All limits of 1 to 8 jobs and of some quanta.
fn all_limits(quanta: &[u8]) -> Vec<Limits> {
    let mut limits = Vec::new();
    for most_jobs in 1..=8 {
        limits.extend(quanta.iter().map(|highest_quantum| Limits {
            most_jobs,
            highest_quantum: *highest_quantum,
        }));
    }
    limits
}

/// How many random calls there are.
const CALLS: u64 = 6_000;

/// The most lists of quanta that the search of a call may try.
const MOST_LISTS: u64 = 2_000;

/// A call of a planner and of a marker.
#[derive(Clone, Debug)]
struct Call {
    block: Vec<u8>,
    lowest: u8,
    highest: u8,
    configuration: Vec<u8>,
    /// The outputs for a configuration and for bounds.
    outputs: [Vec<u8>; 2],
}

/// The longest period and deadline of a list.
const LONGEST: u16 = 1_000;

/// A range whose highest quantum is one of the limits or beside it.
fn any_range(random: &mut Random) -> QuantumRange {
    let limit = random.choose(&QUANTA);
    let highest = random.choose(&[limit, limit, limit + 1, limit - 1]);
    let highest = highest.clamp(1, 64);
    let close = highest.saturating_sub(3).max(1);
    QuantumRange {
        lowest: random.choose(&[1, close, close, highest]),
        highest,
    }
}

/// A list of short times, half of them built so that a configuration passes.
fn any_list(random: &mut Random, range: QuantumRange) -> Vec<Job> {
    let count = random.between(1, 8);
    let rule = random.choose(&RULES_OF_LAYERS);
    loop {
        let mut jobs = match random.below(6) {
            0 => equal(random, count),
            1 => small(random, count),
            2 => worked(random, count),
            _ => built(random, count, range, rule).jobs,
        };
        give_ids(random, &mut jobs);
        let mut times = jobs.iter().map(|job| job.period.max(job.deadline));
        if times.all(|longest| longest <= LONGEST) {
            return jobs;
        }
    }
}

/// The range, or its highest quantum alone if the search for the list's plan is long.
fn affordable(jobs: &[Job], range: QuantumRange) -> QuantumRange {
    match plan_jobs_within(jobs, range, RULES, MOST_LISTS) {
        Ok(_) => range,
        Err(_) => QuantumRange {
            lowest: range.highest,
            ..range
        },
    }
}

/// A change that may put a fault into a call.
type Change = fn(&mut Random, &mut Call);

const CHANGES: [Change; 17] = [
    // Of the job block's length.
    |_, call| call.block.clear(),
    |_, call| call.block.push(0),
    |_, call| call.block.truncate(call.block.len().saturating_sub(1)),
    |_, call| call.block.resize(72, 255),
    // Of a job.
    |random, call| set(random, &mut call.block, 8, 0, 0),
    |random, call| set(random, &mut call.block, 8, 0, 1),
    |random, call| set(random, &mut call.block, 8, 3, 0),
    |random, call| set(random, &mut call.block, 8, 4, 255),
    // Of the range.
    |_, call| call.lowest = 0,
    |_, call| call.lowest = call.highest.saturating_add(1),
    |random, call| call.highest = random.byte(65, 255),
    // Of the configuration.
    |_, call| call.configuration.push(0),
    |random, call| set(random, &mut call.configuration, 4, 0, 77),
    |random, call| {
        let place = random.between(1, 3);
        let byte = random.choose(&[0, 1, 2, 3, 16, 17, 65]);
        set(random, &mut call.configuration, 4, place, byte)
    },
    |random, call| {
        let place = random.between(1, 3);
        set(random, &mut call.configuration, 4, place, 1)
    },
    // Of the outputs.
    |random, call| {
        let output = random.choose(&[0, 1]);
        call.outputs[output].pop();
    },
    |_, call| call.outputs = [Vec::new(), Vec::new()],
];

/// Sets one byte of one of the records of so many bytes, if there is one.
fn set(random: &mut Random, records: &mut [u8], bytes: usize, place: usize, value: u8) {
    let count = records.len() / bytes;
    if count > 0 {
        records[bytes * random.below(count) + place] = value;
    }
}

/// A call with up to three changes, every third one without any.
fn any_call(case: u64) -> Call {
    let mut random = Random::of_case(81, case);
    let range = any_range(&mut random);
    let jobs = any_list(&mut random, range);
    let range = affordable(&jobs, range);
    let is_full = !random.once_in(6);
    let list = any_configured(&mut random, jobs, range, is_full);
    let past = random.below(3);
    let needs = [4 * list.jobs.len() + past, 2 * list.jobs.len() + past];
    let mut call = Call {
        block: block_of_jobs(&list.jobs),
        lowest: range.lowest,
        highest: range.highest,
        configuration: records_of_settings(&list.settings),
        outputs: needs.map(|length| random.filled(length)),
    };
    let changes = random.choose(&[0, 1, 1, 2, 3, 0]);
    for _ in 0..changes {
        random.choose(&CHANGES)(&mut random, &mut call);
    }
    call
}

/// The whole outcome of a call: the numbers answered or the refusal's, and the outputs after it.
#[derive(Clone, Debug, PartialEq, Eq)]
struct Outcome {
    answer: Result<Vec<u16>, u8>,
    outputs: [Vec<u8>; 2],
}

/// The box that a call is made to.
#[derive(Clone, Copy, Debug)]
enum To {
    Mats,
    Gate,
    Limited(Limits),
}

impl Call {
    /// The outcome of the planner.
    fn planned(&self, to: To) -> Outcome {
        let (block, lowest, highest) = (&self.block, self.lowest, self.highest);
        let mut outputs = self.outputs.clone();
        let [first, second] = &mut outputs;
        let answer = match to {
            To::Mats => plan(block, lowest, highest, first, second),
            To::Gate => gate_plan(block, lowest, highest, first, second),
            To::Limited(limits) => plan_within(limits, block, lowest, highest, first, second),
        };
        let answer = answer.map(|(placed, considered)| vec![u16::from(placed), considered]);
        Outcome {
            answer: answer.map_err(Refusal::number),
            outputs,
        }
    }

    /// The outcome of the marker, which is lent the second output alone.
    fn marked(&self, to: To) -> Outcome {
        let (block, lowest, highest) = (&self.block, self.lowest, self.highest);
        let given = &self.configuration;
        let mut outputs = self.outputs.clone();
        let [_, output] = &mut outputs;
        let answer = match to {
            To::Mats => mark(block, lowest, highest, given, output),
            To::Gate => gate_mark(block, lowest, highest, given, output),
            To::Limited(limits) => mark_within(limits, block, lowest, highest, given, output),
        };
        let answer = answer.map(|passes| vec![u16::from(passes)]);
        Outcome {
            answer: answer.map_err(Refusal::number),
            outputs,
        }
    }

    /// The outcomes of the planner and of the marker.
    fn outcomes(&self, to: To) -> [Outcome; 2] {
        [self.planned(to), self.marked(to)]
    }

    /// Whether the jobs and the range are within limits.
    fn is_within(&self, limits: Limits) -> bool {
        self.block.len() <= 8 * limits.most_jobs && self.highest <= limits.highest_quantum
    }
}

/// What there is to show of a call to a box with limits.
#[derive(Clone, Copy, Debug, PartialEq, Eq)]
enum Part {
    /// One of the refusals 1 to 6 turns the call down, at the mats as well.
    TurnedDown,
    /// Refusals 1 to 6 let the call by, and the limits do not.
    Past,
    /// The limits let the call by, and a later refusal does not.
    WithinRefused,
    WithinAccepted,
}

/// How many outcomes are in each part.
type Counts = [usize; 4];

impl Part {
    /// The part of a call with this outcome at the mats.
    fn of_call(call: &Call, limits: Limits, at_mats: &Outcome) -> Part {
        match at_mats.answer {
            Err(1..=6) => Part::TurnedDown,
            _ if !call.is_within(limits) => Part::Past,
            Err(_) => Part::WithinRefused,
            Ok(_) => Part::WithinAccepted,
        }
    }
}

/// Compares the outcomes of a call to a box with limits with those at the mats, and counts them.
fn compare(call: &Call, to: To, limits: Limits, at_mats: &[Outcome; 2], counts: &mut [Counts; 2]) {
    let refused = Outcome {
        answer: Err(15),
        outputs: call.outputs.clone(),
    };
    for (entry, found) in call.outcomes(to).iter().enumerate() {
        let part = Part::of_call(call, limits, &at_mats[entry]);
        let expected = match part {
            Part::Past => &refused,
            _ => &at_mats[entry],
        };
        assert_eq!(found, expected, "{limits:?} {call:?}");
        counts[entry][part as usize] += 1;
    }
}

#[test]
fn the_calls_have_every_kind_of_answer() {
    let (mut nothing, mut some, mut all, mut shared) = (0, 0, 0, 0);
    let mut marks = [0; 2];
    for call in (0..CALLS).map(any_call) {
        let [planned, marked] = call.outcomes(To::Mats);
        if let Ok(numbers) = &planned.answer {
            let jobs = call.block.len() / 8;
            match numbers[0] {
                0 => nothing += 1,
                placed if placed < (1 << jobs) - 1 => some += 1,
                _ => all += 1,
            }
            let mut records = planned.outputs[0][..4 * jobs].chunks(4);
            shared += usize::from(records.any(|record| record[2] == 2));
        }
        if let Ok(numbers) = &marked.answer {
            marks[usize::from(numbers[0])] += 1;
        }
    }
    let plans = [nothing, some, all, shared];
    assert!(nothing >= 500 && some >= 15, "{plans:?}");
    assert!(all >= 500 && shared >= 50, "{plans:?}");
    assert!(marks.iter().all(|count| *count >= 300), "{marks:?}");
}

#[test]
fn within_all_limits_the_outcomes_are_those_of_the_mats() {
    let mut counted: Vec<(Limits, [Counts; 2])> = all_limits(&QUANTA)
        .into_iter()
        .map(|limits| (limits, [[0; 4]; 2]))
        .collect();
    for call in (0..CALLS).map(any_call) {
        let at_mats = call.outcomes(To::Mats);
        for (limits, counts) in &mut counted {
            compare(&call, To::Limited(*limits), *limits, &at_mats, counts);
        }
    }
    for (limits, of_entries) in counted {
        for counts in of_entries {
            let [turned_down, past, refused, accepted] = counts;
            assert!(turned_down >= 2_000, "{limits:?} {counts:?}");
            assert_eq!(past > 0, limits != Limits::MATS, "{limits:?} {counts:?}");
            assert!(refused + accepted >= 10, "{limits:?} {counts:?}");
        }
    }
}

#[test]
fn the_gate_and_the_mats_are_two_of_the_limits() {
    let (mut at_gate, mut all_at_mats) = ([[0; 4]; 2], [[0; 4]; 2]);
    for call in (0..CALLS).map(any_call) {
        let at_mats = call.outcomes(To::Mats);
        compare(&call, To::Gate, Limits::GATE, &at_mats, &mut at_gate);
        let to_mats = To::Limited(Limits::MATS);
        compare(&call, to_mats, Limits::MATS, &at_mats, &mut all_at_mats);
    }
    for counts in at_gate {
        assert!(counts.iter().all(|count| *count >= 50), "{counts:?}");
    }
    for counts in all_at_mats {
        assert_eq!(counts[Part::Past as usize], 0, "{counts:?}");
    }
}

/// Marks so many jobs with a level each within limits, with highest quanta around the limit, and
/// answers how many calls get 15.
fn marks_past(jobs: u8, limits: Limits) -> usize {
    let records: Vec<[u8; 8]> = (1..=jobs).map(|id| [id, 0, 0, 1, 0, 9, 0, 9]).collect();
    let levels: Vec<[u8; 4]> = (1..=jobs).map(|id| [id, id, 1, 0]).collect();
    let mut past = 0;
    let limit = limits.highest_quantum;
    for highest in [1, 16, 17, 64, (limit - 1).max(1), limit, limit + 1] {
        let call = Call {
            block: records.concat(),
            lowest: 1,
            highest,
            configuration: levels.concat(),
            outputs: [Vec::new(), vec![0; 2 * usize::from(jobs)]],
        };
        let expected = match highest {
            65 => Err(6),
            _ if usize::from(jobs) > limits.most_jobs || highest > limit => Err(15),
            _ => Ok(vec![1]),
        };
        let found = call.marked(To::Limited(limits)).answer;
        assert_eq!(found, expected, "{jobs} jobs, {highest}, {limits:?}");
        past += usize::from(expected == Err(15));
    }
    past
}

#[test]
fn every_limit_at_every_number_of_jobs() {
    let quanta: Vec<u8> = (1..=64).collect();
    let mut past = 0;
    for limits in all_limits(&quanta) {
        past += (1..=8).map(|jobs| marks_past(jobs, limits)).sum::<usize>();
    }
    assert!(past >= 15_000, "{past} calls");
}
