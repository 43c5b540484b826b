//! Calls that break bounds down: accepted ones on lists whose breakdowns show wanted features,
//! calls with faults, and worked ones.

use crate::entries::{breakdown, BREAKDOWN};
use crate::frames::Frame;
use crate::generation::breakdown_lists::parts_with_feature;
use crate::generation::breakdown_worked::worked_breakdown;
use crate::generation::call::{accepted_input, Parts};
use crate::generation::configured::{leave_layer_out, DrawList};
use crate::generation::delay_calls::any_parts;
use crate::generation::delays::list_with_effect;
use crate::generation::job_calls::{faults_in_turn, input_with_faults, Asked};
use crate::generation::job_faults::with_one_bad_time;
use crate::generation::light_neighbour_calls::uneven_range;
use crate::generation::light_neighbours::list_with_situation;
use crate::generation::random::Random;
use crate::generation::rounds::{row, Kind, Row};
use crate::generation::runs::list_with_run;
use crate::jobs::MOST_JOBS;

pub const BREAKDOWNS: Kind = Kind {
    name: "breakdowns",
    cases: 900,
    round: &ROUND,
};

const ROUND: [Row; 6] = [
    row(BREAKDOWN, 22, |random, turn| {
        let parts = parts_with_feature(random, turn);
        accepted_input(random, &breakdown::GIVEN, &parts)
    }),
    row(BREAKDOWN, 6, |random, turn| {
        of_list(random, turn, list_with_effect)
    }),
    row(BREAKDOWN, 4, |random, turn| {
        of_list(random, turn, list_with_run)
    }),
    row(BREAKDOWN, 2, |random, turn| {
        of_list(random, turn, list_with_situation)
    }),
    row(BREAKDOWN, 7, |random, turn| {
        let asked = Asked {
            given: &breakdown::GIVEN,
            turn,
            faults: faults_in_turn(&REFUSALS, turn),
        };
        let count = asked.job_count(random);
        let parts = any_parts(random, count, |random| !random.once_in(3));
        input_with_faults(random, &asked, &parts, with_one_bad_time)
    }),
    row(BREAKDOWN, 4, worked_breakdown),
];

/// The refusals of the entry in the order in which they are sought.
const REFUSALS: [u8; 10] = [1, 2, 3, 5, 6, 7, 8, 9, 10, 12];

/// The accepted call on a list that another kind of cases has too, once in five times with a layer
/// left out.
fn of_list(random: &mut Random, turn: usize, draw: DrawList) -> Frame {
    let count = random.between(2, MOST_JOBS);
    let range = uneven_range(random);
    let mut list = draw(random, turn, count, range);
    if random.once_in(5) {
        leave_layer_out(random, &mut list.settings);
    }
    accepted_input(random, &breakdown::GIVEN, &Parts::of_list(list, range))
}
