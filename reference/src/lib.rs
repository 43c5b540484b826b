//! The entries of the scope document with its change requests E1, E2, E4, E5, E6, E7 and E8 as
//! plain functions, written by direct reading and exhaustive search, and the generation of cases
//! with their expected answers.

pub mod breakdown;
pub mod changed_keys;
pub mod configuration;
pub mod desk;
pub mod entries;
pub mod frames;
pub mod gate;
pub mod generation;
pub mod jobs;
pub mod kernel;
pub mod key;
pub mod marker;
pub mod planner;
pub mod program;
pub mod quanta;
pub mod refusal;
pub mod response_time;
pub mod sets;
pub mod text_list;

pub use breakdown::breakdown;
pub use configuration::{read_configuration, same_bytes, write_configuration};
pub use desk::edit;
pub use gate::{gate_mark, gate_plan};
pub use jobs::{read_jobs, write_jobs};
pub use kernel::{from_kernel, to_kernel};
pub use key::key;
pub use marker::mark;
pub use planner::plan;
pub use refusal::Refusal;
pub use response_time::bounds;
