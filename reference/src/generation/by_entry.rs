//! Counts of the accepted cases that answer the bounds of a configuration, entry by entry.

use std::fmt;

use crate::breakdown::{breakdowns_of_records, Breakdown, BREAKDOWN_BYTES};
use crate::configuration::{settings_of_records, QuantumRange, Setting, SETTING_BYTES};
use crate::entries::{
    bounds, breakdown, gate_mark, gate_plan, mark, plan, Entry, BREAKDOWN, GATE_MARK, GATE_PLAN,
    MARK, PLAN,
};
use crate::generation::Case;
use crate::jobs::{jobs_of_records, Job};
use crate::response_time::{bounds_of_records, BOUND_BYTES};

/// The entries whose accepted cases are counted.
const COUNTED: [&Entry; 6] = [
    &bounds::ENTRY,
    &mark::ENTRY,
    &plan::ENTRY,
    &breakdown::ENTRY,
    &gate_plan::ENTRY,
    &gate_mark::ENTRY,
];

/// What an accepted case that is counted is about and answers.
pub struct Answered {
    pub jobs: Vec<Job>,
    pub range: QuantumRange,
    pub settings: Vec<Setting>,
    pub bounds: Vec<u16>,
    /// Whether a marker says that the configuration passes.
    pub passes: bool,
}

impl Answered {
    /// What an accepted case answers, with the place of its entry among those counted; none if it
    /// is not counted.
    pub fn of_case(case: &Case) -> Option<(usize, Answered)> {
        let Case { input, output } = case;
        let is_asked = |entry: &&Entry| entry.number == input.head;
        let place = COUNTED.iter().position(is_asked)?;
        let ([lowest, highest], [jobs, configuration, _]) = input.parts()?;
        let jobs = jobs_of_records(jobs);
        let configuration = match input.head {
            PLAN | GATE_PLAN => &output.blocks[0][..SETTING_BYTES * jobs.len()],
            _ => configuration,
        };
        let output_of = |bytes_per_job| Some(&output.blocks.last()?[..bytes_per_job * jobs.len()]);
        let bounds = match input.head {
            BREAKDOWN => {
                let breakdowns = breakdowns_of_records(output_of(BREAKDOWN_BYTES)?);
                breakdowns.iter().map(Breakdown::bound).collect()
            }
            _ => bounds_of_records(output_of(BOUND_BYTES)?),
        };
        let answered = Answered {
            jobs,
            range: QuantumRange { lowest, highest },
            settings: settings_of_records(configuration),
            bounds,
            passes: matches!(input.head, MARK | GATE_MARK) && output.numbers == [1],
        };
        Some((place, answered))
    }
}

/// The counts of one entry.
pub trait Counts {
    /// Counts an accepted case.
    fn count(&mut self, answered: &Answered);

    /// The counts with their names.
    fn lines(&self) -> Vec<(&'static str, usize)>;
}

/// The counts of the entries that are counted.
#[derive(Clone, Copy, Debug, Default)]
pub struct ByEntry<T> {
    pub entries: [T; COUNTED.len()],
}

impl<T: Counts> ByEntry<T> {
    /// Writes the counts of the entries beside each other under a title.
    pub fn write(&self, formatter: &mut fmt::Formatter<'_>, title: &str) -> fmt::Result {
        write!(formatter, "{title:<40}")?;
        for entry in COUNTED {
            write!(formatter, "{:>10}", entry.name)?;
        }
        writeln!(formatter)?;
        let columns = self.entries.each_ref().map(T::lines);
        for (line, (name, _)) in columns[0].iter().enumerate() {
            write!(formatter, "{name:<40}")?;
            for column in &columns {
                write!(formatter, "{:>10}", column[line].1)?;
            }
            writeln!(formatter)?;
        }
        Ok(())
    }
}
