//! What delays do in accepted cases.

use std::fmt;

use crate::configuration::NOT_PLACED;
use crate::entries::{BOUNDS, BREAKDOWN, ENTRIES, GATE_MARK, GATE_PLAN, KEY, MARK, PLAN};
use crate::frames::Frame;
use crate::generation::by_entry::{Answered, ByEntry, Counts};
use crate::generation::delays::{delays_change_bounds, delays_change_plan, has_delay};
use crate::generation::effects::EFFECTS;
use crate::generation::Case;
use crate::jobs::Job;
use crate::key::KEY_RANGE;
use crate::planner::{plan_jobs, RULES};

/// The counts of one entry's accepted cases in which a list has a delay.
#[derive(Clone, Copy, Debug, Default)]
pub struct EffectCounts {
    /// Placed jobs with a delay.
    pub jobs: usize,
    /// Placed jobs with the longest delay, 255.
    pub longest: usize,
    /// By the effect's number, placed jobs of such a list that show the effect.
    pub effects: [usize; EFFECTS.len()],
}

impl Counts for EffectCounts {
    fn count(&mut self, answered: &Answered) {
        let Answered { jobs, settings, .. } = answered;
        for (index, (job, setting)) in jobs.iter().zip(settings).enumerate() {
            let is_placed = setting.policy != NOT_PLACED;
            self.jobs += usize::from(is_placed && job.delay != 0);
            self.longest += usize::from(is_placed && job.delay == u8::MAX);
            for effect in EFFECTS {
                let is_shown = effect.is_shown_by(jobs, settings, index);
                self.effects[effect as usize] += usize::from(is_shown);
            }
        }
    }

    fn lines(&self) -> Vec<(&'static str, usize)> {
        let effects = self.effects;
        vec![
            ("with a J above 0", self.jobs),
            ("with a J of 255", self.longest),
            ("raised by a J above, policy 1", effects[0]),
            ("bound 0 by the J of others", effects[1]),
            ("bound 0 by the own J", effects[2]),
            ("and the J is from D on", effects[3]),
            ("own J from T on, bound not 0", effects[4]),
            ("closed later by the own J", effects[5]),
            ("bound reached later by others' J", effects[6]),
            ("closed at instance 63 by the own J", effects[7]),
            ("past 64 T by the own J", effects[8]),
            ("second bound, raised by a neighbour", effects[9]),
            ("first bound, by a neighbour's J", effects[10]),
        ]
    }
}

/// The counts of all entries.
#[derive(Clone, Copy, Debug, Default)]
pub struct DelayCounts {
    /// By the entry's place, accepted cases whose list has a delay.
    pub lists: [usize; ENTRIES.len()],
    /// Of these, cases whose bounds are other ones than with every delay set to 0.
    pub mattering: [usize; ENTRIES.len()],
    pub effects: ByEntry<EffectCounts>,
}

/// Whether the delays of an accepted case change the bounds that it answers, if it answers some.
fn delays_matter(input: &Frame, jobs: &[Job], answered: Option<&Answered>) -> bool {
    let change_plan = |range, bounds: &[u16]| delays_change_plan(jobs, range, RULES.order, bounds);
    match (input.head, answered) {
        (BOUNDS | MARK | BREAKDOWN | GATE_MARK, Some(answered)) => {
            delays_change_bounds(jobs, &answered.settings)
        }
        (PLAN | GATE_PLAN, Some(answered)) => change_plan(answered.range, &answered.bounds),
        (KEY, _) => change_plan(KEY_RANGE, &plan_jobs(jobs, KEY_RANGE).bounds),
        _ => false,
    }
}

impl DelayCounts {
    /// Counts an accepted case of any entry.
    pub fn count(&mut self, case: &Case) {
        let jobs = case.jobs();
        if !has_delay(&jobs) {
            return;
        }
        let answered = Answered::of_case(case);
        let matter = delays_matter(&case.input, &jobs, answered.as_ref().map(|(_, it)| it));
        let entry = case.place_of_entry();
        self.lists[entry] += 1;
        self.mattering[entry] += usize::from(matter);
        if let Some((place, answered)) = answered {
            self.effects.entries[place].count(&answered);
        }
    }
}

impl fmt::Display for DelayCounts {
    fn fmt(&self, formatter: &mut fmt::Formatter<'_>) -> fmt::Result {
        writeln!(
            formatter,
            "{:<24}{:>16}{:>20}",
            "accepted lists", "with a J above 0", "where a J matters"
        )?;
        for (place, entry) in ENTRIES.iter().enumerate() {
            let mattering = match entry.number {
                BOUNDS | MARK | PLAN | KEY | BREAKDOWN | GATE_PLAN | GATE_MARK => {
                    self.mattering[place].to_string()
                }
                _ => "no bounds".to_string(),
            };
            let (name, lists) = (entry.name, self.lists[place]);
            writeln!(formatter, "{name:<24}{lists:>16}{mattering:>20}")?;
        }
        let lists: usize = self.lists.iter().sum();
        let mattering: usize = self.mattering.iter().sum();
        writeln!(formatter, "{:<24}{lists:>16}{mattering:>20}", "all")?;
        writeln!(formatter)?;
        let title = "jobs placed in lists with a J";
        self.effects.write(formatter, title)
    }
}
