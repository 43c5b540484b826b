//! The other side of the measures that compare entry by entry.

use crate::calls::{Mark, Plan};
#[cfg(before)]
use crate::library::before;
#[cfg(not(before))]
use crate::same::{marker, planner};

/// Code that answers the same calls.
#[derive(Clone, Copy)]
pub struct Opponent {
    pub name: &'static str,
    pub bounds: Mark,
    pub mark: Mark,
    pub plan: Plan,
    /// The goal for the product's time in parts of this side's.
    pub goal: f64,
}

/// The same algorithm in Rust.
#[cfg(not(before))]
pub const OPPONENT: Opponent = Opponent {
    name: "rust",
    bounds: marker::bounds,
    mark: marker::mark,
    plan: planner::plan,
    goal: 1.25,
};

/// Another version of the product, which `bench/run` was given.
#[cfg(before)]
pub const OPPONENT: Opponent = Opponent {
    name: "before",
    bounds: before::bounds,
    mark: before::mark,
    plan: before::plan,
    goal: 1.05,
};
