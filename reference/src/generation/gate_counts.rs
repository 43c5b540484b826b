//! How the cases of the start gate stand to its limits, and what they answer.

use std::fmt;

use crate::configuration::{settings_of_records, Setting};
use crate::entries::{gate_mark, gate_plan, Entry};
use crate::gate::Limits;
use crate::generation::gate_sizes::Size;
use crate::generation::Case;
use crate::jobs::jobs_of_records;

/// The entries whose cases are counted.
const COUNTED: [&Entry; 2] = [&gate_plan::ENTRY, &gate_mark::ENTRY];

/// What a case of the gate is given and answers.
pub struct GateCase {
    pub jobs: usize,
    pub lowest: u8,
    pub highest: u8,
    /// The records of the configuration block, none for the planner.
    pub settings: Vec<Setting>,
    /// The refusal's number, 0 for none.
    pub answer: u8,
    /// The numbers of all refusals that apply.
    pub refusals: Vec<u8>,
}

impl GateCase {
    /// What a case of the gate is given and answers, with the place of its entry among those
    /// counted; none if it is of another entry.
    pub fn of_case(case: &Case) -> Option<(usize, GateCase)> {
        let Case { input, output } = case;
        let is_asked = |entry: &&Entry| entry.number == input.head;
        let place = COUNTED.iter().position(is_asked)?;
        let ([lowest, highest], [jobs, configuration, _]) = input.parts()?;
        let settings = match input.head {
            gate_mark::GATE_MARK => settings_of_records(configuration),
            _ => Vec::new(),
        };
        let faults = case.faults();
        let gate_case = GateCase {
            jobs: jobs_of_records(jobs).len(),
            lowest,
            highest,
            settings,
            answer: output.head,
            refusals: faults.iter().map(|fault| fault.refusal.number()).collect(),
        };
        Some((place, gate_case))
    }

    /// How the call stands to the limits, whether or not its jobs and its range are accepted.
    pub fn size(&self) -> Size {
        Size::of_call(self.jobs, self.highest)
    }

    fn is_accepted_with(&self, jobs: usize) -> bool {
        self.answer == 0 && self.jobs == jobs
    }

    fn is_accepted_up_to(&self, highest: u8) -> bool {
        self.answer == 0 && self.highest == highest
    }

    fn is_past(&self, size: Size) -> bool {
        self.answer == 15 && self.size() == size
    }

    /// Whether the call is past the limits, and is refused for an earlier reason.
    fn is_past_with_earlier(&self, answer: u8) -> bool {
        self.answer == answer && self.refusals.contains(&15)
    }

    /// Whether the call is refused for its limits, and a later refusal applies too.
    fn is_past_with_later(&self, later: u8) -> bool {
        self.answer == 15 && self.refusals.contains(&later)
    }

    /// Whether a record has a quantum one above the gate's highest.
    fn has_record_past(&self) -> bool {
        let past = Limits::GATE.highest_quantum + 1;
        let mut settings = self.settings.iter();
        settings.any(|setting| setting.quantum == past)
    }

    /// Whether such a record has no shape in a range up to the gate's highest quantum.
    fn is_refused_by_record(&self) -> bool {
        let is_up_to_limit = self.highest == Limits::GATE.highest_quantum;
        self.answer == 9 && is_up_to_limit && self.has_record_past()
    }
}

/// A situation: its name, and whether a case is in it.
pub type Situation = (&'static str, fn(&GateCase) -> bool);

pub const SITUATIONS: [Situation; 34] = [
    ("accepted, 1 job", |case| case.is_accepted_with(1)),
    ("accepted, 2 jobs", |case| case.is_accepted_with(2)),
    ("accepted, 3 jobs", |case| case.is_accepted_with(3)),
    ("accepted, 4 jobs", |case| case.is_accepted_with(4)),
    ("accepted, quanta 1 to 1", |case| case.is_accepted_up_to(1)),
    ("accepted, highest quantum below 16", |case| {
        case.answer == 0 && case.highest < 16
    }),
    ("accepted, highest quantum 16", |case| {
        case.is_accepted_up_to(16)
    }),
    ("accepted, 4 jobs, highest quantum 16", |case| {
        case.is_accepted_with(4) && case.highest == 16
    }),
    ("15 by the jobs alone", |case| {
        case.is_past(Size::PastByJobs)
    }),
    ("by 5 jobs, highest quantum 16", |case| {
        case.is_past(Size::PastByJobs) && case.jobs == 5 && case.highest == 16
    }),
    ("by 6 or 7 jobs", |case| {
        case.is_past(Size::PastByJobs) && matches!(case.jobs, 6 | 7)
    }),
    ("by 8 jobs", |case| {
        case.is_past(Size::PastByJobs) && case.jobs == 8
    }),
    ("15 by the highest quantum alone", |case| {
        case.is_past(Size::PastByQuantum)
    }),
    ("by 17, 4 jobs", |case| {
        case.is_past(Size::PastByQuantum) && case.highest == 17 && case.jobs == 4
    }),
    ("by 17", |case| {
        case.is_past(Size::PastByQuantum) && case.highest == 17
    }),
    ("by 18 to 63", |case| {
        case.is_past(Size::PastByQuantum) && (18..64).contains(&case.highest)
    }),
    ("by 64", |case| {
        case.is_past(Size::PastByQuantum) && case.highest == 64
    }),
    ("15 by both", |case| case.is_past(Size::PastByBoth)),
    ("15, and nothing else", |case| case.refusals == [15]),
    ("1, past the limits", |case| case.is_past_with_earlier(1)),
    ("2, past the limits", |case| case.is_past_with_earlier(2)),
    ("3, past the limits", |case| case.is_past_with_earlier(3)),
    ("5, past the limits", |case| case.is_past_with_earlier(5)),
    ("6, past the limits", |case| case.is_past_with_earlier(6)),
    ("6, highest quantum 17 to 64", |case| {
        case.answer == 6 && (17..=64).contains(&case.highest)
    }),
    ("15 before 7", |case| case.is_past_with_later(7)),
    ("15 before 8", |case| case.is_past_with_later(8)),
    ("15 before 9", |case| case.is_past_with_later(9)),
    ("15 before 10", |case| case.is_past_with_later(10)),
    ("15 before 11", |case| case.is_past_with_later(11)),
    ("15 before 12", |case| case.is_past_with_later(12)),
    ("9 by a record's 17, quanta up to 16", |case| {
        case.is_refused_by_record()
    }),
    ("15 by 17, a record has 17", |case| {
        case.is_past(Size::PastByQuantum) && case.highest == 17 && case.has_record_past()
    }),
    ("15 by 17, no record above 16", |case| {
        case.is_past(Size::PastByQuantum) && case.highest == 17 && !case.has_record_past()
    }),
];

/// The counts of both entries' cases, by the situation's place.
#[derive(Clone, Copy, Debug)]
pub struct GateCounts {
    pub entries: [[usize; SITUATIONS.len()]; COUNTED.len()],
}

impl Default for GateCounts {
    fn default() -> GateCounts {
        GateCounts {
            entries: [[0; SITUATIONS.len()]; COUNTED.len()],
        }
    }
}

impl GateCounts {
    /// Counts a case of any entry and answer.
    pub fn count(&mut self, case: &Case) {
        if let Some((place, case)) = GateCase::of_case(case) {
            for ((_, is_shown), count) in SITUATIONS.iter().zip(&mut self.entries[place]) {
                *count += usize::from(is_shown(&case));
            }
        }
    }
}

impl fmt::Display for GateCounts {
    fn fmt(&self, formatter: &mut fmt::Formatter<'_>) -> fmt::Result {
        let [plan, mark] = COUNTED.map(|entry| entry.name);
        writeln!(formatter, "{:<40}{plan:>10}{mark:>10}", "the gate's limits")?;
        for (place, (name, _)) in SITUATIONS.iter().enumerate() {
            let [plan, mark] = self.entries.map(|counts| counts[place]);
            writeln!(formatter, "{name:<40}{plan:>10}{mark:>10}")?;
        }
        Ok(())
    }
}
