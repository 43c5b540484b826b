//! How the periods of the planner's accepted cases stand to each other, and which wrong orders of
//! the sets the cases tell.

use crate::generation::by_entry::Answered;
use crate::generation::delays::has_delay;
use crate::generation::long_deadlines::has_long_deadline;
use crate::generation::orders::{larger_number_first, WRONG_ORDERS};
use crate::generation::period_shapes::{Shape, SHAPES};
use crate::generation::searches::Searches;
use crate::planner::RULES;

/// The counts of the planner's accepted cases.
#[derive(Clone, Copy, Debug, Default)]
pub struct OrderCounts {
    pub cases: usize,
    /// By the shape's number, cases whose list has it.
    pub shapes: [usize; SHAPES.len()],
    pub with_delay: usize,
    pub with_long_deadline: usize,
    /// By the place of a wrong order, cases that answer another plan by it. A case is not counted
    /// if a search for one of the two plans is not affordable.
    pub told: [usize; WRONG_ORDERS.len()],
    /// Cases with equal sums of other periods that answer another plan if among sets of two jobs or
    /// more of one sum the larger number is first.
    pub decided_by_number: usize,
}

impl OrderCounts {
    /// The counts of one accepted case of the planner.
    pub fn of_case(answered: &Answered) -> OrderCounts {
        let Answered { jobs, range, .. } = answered;
        let mut counts = OrderCounts {
            cases: 1,
            shapes: SHAPES.map(|shape| usize::from(shape.is_shown_by(jobs))),
            with_delay: usize::from(has_delay(jobs)),
            with_long_deadline: usize::from(has_long_deadline(jobs)),
            ..OrderCounts::default()
        };
        let mut searches = Searches::new(jobs, *range);
        if let Ok(right) = searches.steps(RULES.order) {
            let mut is_told =
                |order| usize::from(searches.steps(order).is_ok_and(|wrong| wrong != right));
            counts.told = WRONG_ORDERS.map(|(_, order)| is_told(order));
            let equal_sums = counts.shapes[Shape::EqualSums as usize];
            counts.decided_by_number = equal_sums * is_told(larger_number_first::<2>);
        }
        counts
    }

    /// Adds the counts of other cases.
    pub fn add(&mut self, other: &OrderCounts) {
        self.cases += other.cases;
        self.with_delay += other.with_delay;
        self.with_long_deadline += other.with_long_deadline;
        self.decided_by_number += other.decided_by_number;
        for (count, more) in self.shapes.iter_mut().zip(other.shapes) {
            *count += more;
        }
        for (count, more) in self.told.iter_mut().zip(other.told) {
            *count += more;
        }
    }

    /// The counts of what the lists have, with their names.
    pub fn lines(&self) -> Vec<(&'static str, usize)> {
        let shapes = self.shapes;
        vec![
            ("all", self.cases),
            ("all periods equal", shapes[0]),
            ("some periods equal", shapes[1]),
            ("equal sums of other periods", shapes[2]),
            (
                "and the number decides between sets",
                self.decided_by_number,
            ),
            ("sums that differ by one", shapes[3]),
            ("periods rising along the list", shapes[4]),
            ("periods falling along the list", shapes[5]),
            ("periods rising and falling", shapes[6]),
            ("two periods with a sum above 65,535", shapes[7]),
            ("a J above 0", self.with_delay),
            ("a D above T", self.with_long_deadline),
        ]
    }

    /// The counts of cases that tell a wrong order, with the orders' names.
    pub fn told_lines(&self) -> Vec<(&'static str, usize)> {
        let orders = WRONG_ORDERS.iter().zip(self.told);
        orders.map(|((name, _), count)| (*name, count)).collect()
    }
}
