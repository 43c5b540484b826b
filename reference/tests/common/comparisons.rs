//! Comparisons of answers that must be the same by two ways of finding them.

use reference::configuration::{QuantumRange, Setting, NOT_PLACED};
use reference::generation::long_deadlines::finish_by_recurrence;
use reference::generation::random::Random;
use reference::jobs::Job;
use reference::planner::{plan_jobs, plan_jobs_by, Plan, Rules, RULES};
use reference::response_time::{finish_by_search, first_run, second_run, BoundRule};

/// Compares the runs of all placed jobs by the recurrence with those by the search.
pub fn assert_same_runs(jobs: &[Job], settings: &[Setting]) {
    for index in 0..jobs.len() {
        if settings[index].policy != NOT_PLACED {
            for run_of_job in [first_run, second_run] {
                assert_eq!(
                    run_of_job(jobs, settings, index, finish_by_recurrence),
                    run_of_job(jobs, settings, index, finish_by_search)
                );
            }
        }
    }
}

/// The plan of a list in a range of small quanta, which is compared with that by the first bound
/// alone.
pub fn plan_by_both_rules(random: &mut Random, jobs: &[Job]) -> Plan {
    let lowest = random.byte(1, 3);
    let range = QuantumRange {
        lowest,
        highest: random.byte(lowest, 9),
    };
    let plan = plan_jobs(jobs, range);
    let rules = Rules {
        bound: BoundRule::First,
        ..RULES
    };
    assert_eq!(plan_jobs_by(jobs, range, rules), plan, "{jobs:?} {range:?}");
    plan
}
