//! The key program's text for a job block.

use crate::configuration::QuantumRange;
use crate::jobs::jobs_of_block;
use crate::planner::{plan_jobs, Plan};

/// "The key program reads a job block from standard input, range 1 to 4."
pub const KEY_RANGE: QuantumRange = QuantumRange {
    lowest: 1,
    highest: 4,
};

/// "It prints a line per job (id, level, policy, quantum, bound, one space between) and a last line
/// `placed m of n`". A job left over has level, policy, quantum and bound 0.
pub fn text_of_plan(plan: &Plan) -> String {
    let mut text = String::new();
    for (setting, bound) in plan.settings.iter().zip(&plan.bounds) {
        text += &format!(
            "{} {} {} {} {}\n",
            setting.id, setting.level, setting.policy, setting.quantum, bound
        );
    }
    let (placed, count) = (plan.placed.count_ones(), plan.settings.len());
    text += &format!("placed {placed} of {count}\n");
    text
}

/// Entry 10: the text of the planner's answer; "A refused block prints only one line, `refused`, a
/// space and the number."
pub fn key(block: &[u8]) -> String {
    match jobs_of_block(block) {
        Ok(jobs) => text_of_plan(&plan_jobs(&jobs, KEY_RANGE)),
        Err(refusal) => format!("refused {}\n", refusal.number()),
    }
}
