//! Calls on lists whose plan depends on the order of the sets: plans and keys, all accepted.

use crate::entries::{key, plan, KEY, PLAN};
use crate::generation::call::{accepted_input, Parts};
use crate::generation::orders::{
    larger_number_first, longest_period_first, numbers_alone, smaller_sum_first, sums_before_sizes,
    sums_halved, sums_in_two_bytes, sums_of_deadlines, sums_up_to_two_bytes, sums_without_last_job,
};
use crate::generation::period_lists::Wanted;
use crate::generation::period_shapes::Shape;
use crate::generation::period_worked::{worked_key, worked_plan};
use crate::generation::rounds::{row, Kind, Row};
use crate::key::KEY_RANGE;
use crate::sets::SetOrder;

pub const PERIODS: Kind = Kind {
    name: "periods",
    cases: 900,
    round: &ROUND,
};

const ROUND: [Row; 4] = [
    row(PLAN, 24, |random, turn| {
        let (shape, order) = PLANS[turn % PLANS.len()];
        let wanted = Wanted {
            shape,
            order,
            differ: |right, wrong| right != wrong,
        };
        let (jobs, range) = wanted.list(random, None);
        accepted_input(random, &plan::GIVEN, &Parts::of_jobs(jobs, range))
    }),
    row(KEY, 4, |random, turn| {
        let (shape, order) = KEYS[turn % KEYS.len()];
        let wanted = Wanted {
            shape,
            order,
            // A key does not tell the count of sets considered.
            differ: |right, wrong| right.taken != wrong.taken,
        };
        let (jobs, range) = wanted.list(random, Some(KEY_RANGE));
        accepted_input(random, &key::GIVEN, &Parts::of_jobs(jobs, range))
    }),
    row(PLAN, 1, worked_plan),
    row(KEY, 1, worked_key),
];

/// The shapes of the planner's lists in turn, each with a wrong order that the list is to tell.
const PLANS: [(Shape, SetOrder); 36] = [
    (Shape::Rising, smaller_sum_first::<1>),
    (Shape::Mixed, sums_before_sizes),
    (Shape::SomeEqual, larger_number_first::<2>),
    (Shape::Rising, sums_without_last_job::<1>),
    (Shape::Long, sums_in_two_bytes),
    (Shape::Rising, numbers_alone::<2>),
    (Shape::EqualSums, larger_number_first::<2>),
    (Shape::SumsByOne, sums_halved),
    (Shape::AllEqual, larger_number_first::<1>),
    (Shape::Falling, smaller_sum_first::<2>),
    (Shape::Mixed, sums_of_deadlines),
    (Shape::Long, sums_in_two_bytes),
    (Shape::SomeEqual, larger_number_first::<3>),
    (Shape::Mixed, numbers_alone::<1>),
    (Shape::EqualSums, longest_period_first),
    (Shape::SumsByOne, smaller_sum_first::<2>),
    (Shape::AllEqual, larger_number_first::<2>),
    (Shape::Long, smaller_sum_first::<2>),
    (Shape::Mixed, smaller_sum_first::<3>),
    (Shape::Falling, sums_before_sizes),
    (Shape::SomeEqual, sums_without_last_job::<2>),
    (Shape::EqualSums, larger_number_first::<3>),
    (Shape::Rising, longest_period_first),
    (Shape::SumsByOne, sums_halved),
    (Shape::Long, sums_up_to_two_bytes),
    (Shape::Mixed, numbers_alone::<3>),
    (Shape::SomeEqual, numbers_alone::<2>),
    (Shape::AllEqual, sums_before_sizes),
    (Shape::Falling, numbers_alone::<2>),
    (Shape::Long, sums_in_two_bytes),
    (Shape::SumsByOne, numbers_alone::<1>),
    (Shape::Rising, sums_without_last_job::<2>),
    (Shape::EqualSums, larger_number_first::<2>),
    (Shape::Falling, sums_of_deadlines),
    (Shape::AllEqual, larger_number_first::<2>),
    (Shape::Long, sums_up_to_two_bytes),
];

/// The same for keys. The sets that are taken seldom differ where they are of two jobs or more.
const KEYS: [(Shape, SetOrder); 12] = [
    (Shape::Rising, numbers_alone::<1>),
    (Shape::AllEqual, larger_number_first::<1>),
    (Shape::Mixed, smaller_sum_first::<1>),
    (Shape::SumsByOne, sums_halved),
    (Shape::Rising, sums_without_last_job::<1>),
    (Shape::EqualSums, numbers_alone::<1>),
    (Shape::Falling, smaller_sum_first::<2>),
    (Shape::Mixed, sums_before_sizes),
    (Shape::SomeEqual, larger_number_first::<1>),
    (Shape::Rising, numbers_alone::<2>),
    (Shape::Long, numbers_alone::<1>),
    (Shape::Mixed, sums_of_deadlines),
];
