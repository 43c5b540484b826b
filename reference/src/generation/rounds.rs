//! Rows of cases: how many there are of each, and how the next one is drawn.

use crate::frames::Frame;
use crate::generation::call::Given;
use crate::generation::job_calls::{job_call, CallRule, Calls};
use crate::generation::random::Random;

/// So many calls of one entry in a round.
pub struct Row {
    pub entry: u8,
    pub calls: usize,
    draw: Draw,
}

/// A way to draw the input of the call that has this turn in its row, counted from 0.
pub type DrawInput = fn(&mut Random, usize) -> Frame;

enum Draw {
    Input(DrawInput),
    /// The source of numbers is that of the turn and not that of the case.
    ByTurn(DrawInput),
    JobCall(&'static CallRule, Calls),
}

/// The row of an entry's calls, so many in a round.
pub const fn row(entry: u8, calls: usize, input: DrawInput) -> Row {
    Row {
        entry,
        calls,
        draw: Draw::Input(input),
    }
}

/// The row of calls each of which belongs to the call with the same turn in another such row. Both
/// have the same source of numbers, so that the one can be made from the other.
pub const fn row_by_turn(entry: u8, calls: usize, input: DrawInput) -> Row {
    Row {
        entry,
        calls,
        draw: Draw::ByTurn(input),
    }
}

/// The row of an entry's calls on jobs, so many in a round. Of ten of them so many are accepted,
/// and the others have these refusals in turn.
pub const fn job_row(
    rule: &'static CallRule,
    calls: usize,
    given: &'static Given,
    accepted: usize,
    refusals: &'static [u8],
) -> Row {
    Row {
        entry: given.entry,
        calls,
        draw: Draw::JobCall(
            rule,
            Calls {
                given,
                accepted,
                refusals,
            },
        ),
    }
}

impl Row {
    /// The input of a case, which is the call that has this turn in the row, counted from 0.
    pub fn input(&self, seed: u64, case: usize, turn: usize) -> Frame {
        let number = match &self.draw {
            Draw::ByTurn(_) => turn,
            _ => case,
        };
        let mut random = Random::of_case(seed, number as u64);
        match &self.draw {
            Draw::Input(input) | Draw::ByTurn(input) => input(&mut random, turn),
            Draw::JobCall(rule, calls) => job_call(&mut random, turn, rule, calls),
        }
    }
}

/// A kind of cases: so many, in rounds.
pub struct Kind {
    pub name: &'static str,
    pub cases: usize,
    pub round: &'static [Row],
}

impl Kind {
    /// The row of a case of this kind, and how many cases of that row come before it.
    pub fn row_of_case(&self, case: usize) -> (&'static Row, usize) {
        let calls: Vec<usize> = self.round.iter().map(|row| row.calls).collect();
        let (place, turn) = place_in_turn(&calls, case);
        (&self.round[place], turn)
    }
}

/// The place whose turn it is if each place in a row has so many turns, and how many turns it has
/// had. After the last place the first comes again.
pub fn place_in_turn(turns: &[usize], turn: usize) -> (usize, usize) {
    let turns_of_round: usize = turns.iter().sum();
    let rounds_before = turn / turns_of_round;
    let mut left = turn % turns_of_round;
    for (place, turns_of_place) in turns.iter().enumerate() {
        if left < *turns_of_place {
            return (place, rounds_before * turns_of_place + left);
        }
        left -= turns_of_place;
    }
    unreachable!("a turn of a round is below the sum of its parts")
}
