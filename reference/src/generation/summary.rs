//! What a set of cases holds, counted from the frames themselves.

use std::fmt;

use crate::entries::faults::{Fault, Place};
use crate::entries::{BREAKDOWN, ENTRIES, GATE_PLAN, KEY, PLAN};
use crate::generation::by_entry::{Answered, ByEntry, Counts};
use crate::generation::delay_counts::DelayCounts;
use crate::generation::feature_counts::FeatureCounts;
use crate::generation::gate_counts::GateCounts;
use crate::generation::order_counts::OrderCounts;
use crate::generation::plan_counts::PlanCounts;
use crate::generation::run_counts::RunCounts;
use crate::generation::situation_counts::SituationCounts;
use crate::generation::{cases_of_kind, kind_of_case, place_of_kind, Case, KINDS, PERIODS};
use crate::refusal::{Refusal, REFUSALS};

/// The counts of one entry.
#[derive(Clone, Copy, Debug, Default)]
pub struct EntryCounts {
    pub accepted: usize,
    pub refused: usize,
    /// Accepted calls whose first number is not 0.
    pub answered_yes: usize,
}

/// The counts of one refusal number.
#[derive(Clone, Copy, Debug, Default)]
pub struct RefusalCounts {
    pub all: usize,
    /// With a fault present that is sought later.
    pub with_later: usize,
    /// With such a fault in an earlier record.
    pub with_later_before: usize,
}

/// The counts of one kind of cases.
#[derive(Clone, Copy, Debug, Default)]
pub struct KindCounts {
    pub accepted: usize,
    pub refused: usize,
    pub neighbours: ByEntry<SituationCounts>,
    pub orders: OrderCounts,
}

/// All counts.
#[derive(Clone, Debug, Default)]
pub struct Summary {
    /// By the entry's place.
    pub entries: [EntryCounts; ENTRIES.len()],
    /// By the refusal's place, without those in the key program's texts.
    pub refusals: [RefusalCounts; REFUSALS.len()],
    /// By the kind's place.
    pub kinds: [KindCounts; KINDS.len()],
    pub plans: PlanCounts,
    pub gate_plans: PlanCounts,
    pub gate: GateCounts,
    pub orders: OrderCounts,
    pub long_deadlines: ByEntry<RunCounts>,
    pub delays: DelayCounts,
    pub breakdowns: FeatureCounts,
}

/// Counts with their names.
type Lines = fn(&OrderCounts) -> Vec<(&'static str, usize)>;

impl Summary {
    /// The counts of the cases from case 0 on.
    pub fn of_cases(cases: &[Case]) -> Summary {
        let mut summary = Summary::default();
        for (number, case) in cases.iter().enumerate() {
            summary.count(number, case);
        }
        summary
    }

    fn count(&mut self, number: usize, case: &Case) {
        let Case { input, output } = case;
        self.gate.count(case);
        let entry = &mut self.entries[case.place_of_entry()];
        let kind = &mut self.kinds[kind_of_case(number).0];
        let is_refused_key = input.head == KEY && output.blocks[0].starts_with(b"refused");
        if output.head != 0 || is_refused_key {
            entry.refused += 1;
            kind.refused += 1;
            for (refusal, counts) in REFUSALS.iter().zip(&mut self.refusals) {
                if refusal.number() == output.head {
                    counts.count(*refusal, &case.faults());
                }
            }
            return;
        }
        entry.accepted += 1;
        kind.accepted += 1;
        entry.answered_yes += usize::from(output.numbers.first().is_some_and(|first| *first != 0));
        self.delays.count(case);
        if let Some((place, answered)) = Answered::of_case(case) {
            kind.neighbours.entries[place].count(&answered);
            self.long_deadlines.entries[place].count(&answered);
            match input.head {
                PLAN => {
                    let orders = OrderCounts::of_case(&answered);
                    kind.orders.add(&orders);
                    self.orders.add(&orders);
                    self.plans.count(&answered);
                }
                GATE_PLAN => self.gate_plans.count(&answered),
                BREAKDOWN => self.breakdowns.count(&answered),
                _ => {}
            }
        }
    }

    /// Writes the counts of entries, those of refusals and those of kinds.
    fn write_answers(&self, formatter: &mut fmt::Formatter<'_>) -> fmt::Result {
        writeln!(
            formatter,
            "{:<24}{:>10}{:>10}{:>18}",
            "entry", "accepted", "refused", "first number > 0"
        )?;
        for (entry, counts) in ENTRIES.iter().zip(&self.entries) {
            writeln!(
                formatter,
                "{:<24}{:>10}{:>10}{:>18}",
                entry.name, counts.accepted, counts.refused, counts.answered_yes
            )?;
        }
        writeln!(
            formatter,
            "\n{:<24}{:>10}{:>18}{:>22}",
            "refusal", "cases", "later fault too", "in an earlier record"
        )?;
        for (refusal, counts) in REFUSALS.iter().zip(&self.refusals) {
            writeln!(
                formatter,
                "{:<24}{:>10}{:>18}{:>22}",
                refusal.number(),
                counts.all,
                counts.with_later,
                counts.with_later_before
            )?;
        }
        self.write_kinds(formatter)
    }

    fn write_kinds(&self, formatter: &mut fmt::Formatter<'_>) -> fmt::Result {
        writeln!(
            formatter,
            "\n{:<24}{:>10}{:>10}{:>14}",
            "kind", "accepted", "refused", "first case"
        )?;
        for (kind, counts) in KINDS.iter().zip(&self.kinds) {
            let first = cases_of_kind(kind).start;
            writeln!(
                formatter,
                "{:<24}{:>10}{:>10}{:>14}",
                kind.name, counts.accepted, counts.refused, first
            )?;
        }
        Ok(())
    }

    /// Writes counts of the cases of both planners beside each other, and those of the gate's limits.
    fn write_plans(&self, formatter: &mut fmt::Formatter<'_>) -> fmt::Result {
        let title = "accepted cases";
        writeln!(formatter, "\n{title:<44}{:>8}{:>10}", "plan", "gate_plan")?;
        let counts = self.plans.lines().into_iter().zip(self.gate_plans.lines());
        for ((name, plan), (_, gate_plan)) in counts {
            writeln!(formatter, "{name:<44}{plan:>8}{gate_plan:>10}")?;
        }
        write!(formatter, "\n{}", self.gate)
    }

    /// Writes counts of all cases of the planner beside those of the kind that is drawn for the
    /// order of the sets.
    fn write_orders(&self, formatter: &mut fmt::Formatter<'_>) -> fmt::Result {
        let of_kind = &self.kinds[place_of_kind(&PERIODS)].orders;
        let parts: [(&str, Lines); 2] = [
            ("periods in accepted cases of plan", OrderCounts::lines),
            ("other plans if sets went by", OrderCounts::told_lines),
        ];
        for (title, lines) in parts {
            let (all, kind) = ("all", PERIODS.name);
            writeln!(formatter, "\n{title:<44}{all:>8}{kind:>10}")?;
            for ((name, all), (_, kind)) in lines(&self.orders).iter().zip(lines(of_kind)) {
                writeln!(formatter, "{name:<44}{all:>8}{kind:>10}")?;
            }
        }
        Ok(())
    }
}

impl RefusalCounts {
    /// Counts a call with this refusal and these faults.
    fn count(&mut self, refusal: Refusal, faults: &[Fault]) {
        self.all += 1;
        let own = faults.iter().find(|fault| fault.refusal == refusal);
        let own = own.and_then(|fault| fault.place);
        let is_later = |fault: &&Fault| fault.refusal.place() > refusal.place();
        let mut later = faults.iter().filter(is_later).peekable();
        self.with_later += usize::from(later.peek().is_some());
        let is_before = |fault: &Fault| is_earlier_record(fault.place, own);
        self.with_later_before += usize::from(later.any(is_before));
    }
}

/// Whether one place is that of a record before the other's in the same block.
fn is_earlier_record(one: Option<Place>, other: Option<Place>) -> bool {
    match (one, other) {
        (Some(one), Some(other)) => one.block == other.block && one.record < other.record,
        _ => false,
    }
}

impl fmt::Display for Summary {
    fn fmt(&self, formatter: &mut fmt::Formatter<'_>) -> fmt::Result {
        self.write_answers(formatter)?;
        self.write_plans(formatter)?;
        self.write_orders(formatter)?;
        writeln!(formatter)?;
        self.long_deadlines
            .write(formatter, "jobs placed with a D above T")?;
        for (kind, counts) in KINDS.iter().zip(&self.kinds) {
            let neighbours = &counts.neighbours;
            if neighbours.entries.iter().any(|entry| entry.cases > 0) {
                writeln!(formatter)?;
                neighbours.write(formatter, &format!("policy 2 jobs, {}", kind.name))?;
            }
        }
        write!(formatter, "\n{}\n{}", self.delays, self.breakdowns)
    }
}
