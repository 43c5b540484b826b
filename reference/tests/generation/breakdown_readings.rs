//! How many of the stored cases tell the breakdowns from those by other readings of the papers.

use reference::breakdown::{parts_of_run, Breakdown, SECOND};
use reference::configuration::{Setting, NOT_PLACED};
use reference::generation::effects::{without_delays, without_neighbour_delays};
use reference::generation::features::Broken;
use reference::generation::situations::two_runs;
use reference::jobs::Job;
use reference::response_time::{jobs_above, layer_share, neighbours, total_interference, Run};

use crate::breakdowns::answers;

fn job_of<'a>(broken: &Broken<'a>) -> &'a Job {
    &broken.jobs[broken.index]
}

/// The breakdown with a change.
fn changed(broken: &Broken, change: impl Fn(&mut Breakdown)) -> Breakdown {
    let mut parts = broken.parts;
    change(&mut parts);
    parts
}

/// The breakdown with a change if the second bound decides.
fn second_changed(broken: &Broken, change: impl Fn(&mut Breakdown)) -> Breakdown {
    match broken.parts.decided {
        SECOND => changed(broken, change),
        _ => broken.parts,
    }
}

/// The breakdown at the last instance of the run that is chosen by its response and the bound.
fn at_last_instance(broken: &Broken, is_chosen: fn(u64, u64) -> bool) -> Breakdown {
    let Broken {
        jobs,
        settings,
        index,
        parts,
    } = *broken;
    let (responses, bound) = (broken.responses(), u64::from(parts.bound()));
    let is_chosen = |response: &u64| is_chosen(*response, bound);
    let last = responses.iter().rposition(is_chosen);
    let last = last.expect("a run reaches its bound");
    let release = last as u64 * u64::from(jobs[index].period);
    let run = Run {
        largest_instance: last as u64,
        largest_finish: responses[last] + release - u64::from(parts.delay),
        ..two_runs(jobs, settings, index)[0]
    };
    parts_of_run(jobs, settings, index, (parts.decided, run))
}

/// The breakdown with the work that these jobs have at a time: those above, and the neighbours if
/// the second bound decides.
fn at_time(broken: &Broken, jobs: &[Job], time: u64) -> Breakdown {
    let Broken {
        settings, index, ..
    } = *broken;
    let work = |jobs: Vec<Job>| total_interference(&jobs, time) as u32;
    let mut parts = second_changed(broken, |parts| {
        parts.layer_share = work(neighbours(jobs, settings, index))
    });
    parts.from_above = work(jobs_above(jobs, settings, index));
    parts
}

/// The share that a job's own work has in the first bound.
fn cycles_of(broken: &Broken, own_work: u32) -> u32 {
    layer_share(broken.settings, broken.index, u64::from(own_work)) as u32
}

/// The breakdown with the work of placed jobs alone.
fn above_placed(broken: &Broken) -> Breakdown {
    let Broken {
        jobs,
        settings,
        index,
        ..
    } = *broken;
    let own_level = settings[index].level;
    let is_above = |setting: &Setting| setting.policy != NOT_PLACED && setting.level < own_level;
    let above = jobs.iter().zip(settings);
    let above = above.filter(|(_, setting)| is_above(setting));
    let above: Vec<Job> = above.map(|(job, _)| *job).collect();
    let work = total_interference(&above, broken.finish()) as u32;
    changed(broken, |parts| parts.from_above = work)
}

/// A reading: its name, how many cases are to tell it, and the breakdown of a bound that is not 0
/// by it.
type Reading = (&'static str, usize, fn(&Broken) -> Breakdown);

/// Readings of where a bound is reached and by which of the two runs.
const READINGS_OF_INSTANCES: [Reading; 5] = [
    ("the last instance that reaches it", 30, |broken| {
        at_last_instance(broken, |response, bound| response == bound)
    }),
    ("the instance that closes the run", 200, |broken| {
        at_last_instance(broken, |_, _| true)
    }),
    ("instances from 1 on", 600, |broken| {
        changed(broken, |parts| parts.instance += 1)
    }),
    ("the second bound if equal", 30, |broken| {
        broken.equal_second().unwrap_or(broken.parts)
    }),
    ("the first run's instance", 100, |broken| {
        let [first, _] = two_runs(broken.jobs, broken.settings, broken.index);
        changed(broken, |parts| {
            parts.instance = first.largest_instance as u8
        })
    }),
];

/// Readings of the amounts.
const READINGS_OF_AMOUNTS: [Reading; 10] = [
    ("the cost as own work", 250, |broken| {
        changed(broken, |parts| parts.own_work = job_of(broken).cost.into())
    }),
    ("cycles of one cost", 60, |broken| {
        let share = cycles_of(broken, job_of(broken).cost.into());
        match broken.parts.decided {
            SECOND => broken.parts,
            _ => changed(broken, |parts| parts.layer_share = share),
        }
    }),
    ("cycles in the second bound too", 400, |broken| {
        let share = cycles_of(broken, broken.parts.own_work);
        second_changed(broken, |parts| parts.layer_share = share)
    }),
    ("neighbours as work from above", 400, |broken| {
        second_changed(broken, |parts| {
            parts.from_above += parts.layer_share;
            parts.layer_share = 0;
        })
    }),
    ("no delay of neighbours", 150, |broken| {
        let without = without_neighbour_delays(broken.jobs, broken.settings, broken.index);
        at_time(broken, &without, broken.finish())
    }),
    ("no delay of others", 200, |broken| {
        at_time(broken, &without_delays(broken.jobs), broken.finish())
    }),
    ("work by the bound", 200, |broken| {
        at_time(broken, broken.jobs, broken.parts.bound().into())
    }),
    ("work by the finish plus J", 100, |broken| {
        let delay = u64::from(broken.parts.delay);
        at_time(broken, broken.jobs, broken.finish() + delay)
    }),
    ("no work of jobs not placed", 90, above_placed),
    ("(j+1)·T taken off", 600, |broken| {
        let period = u32::from(job_of(broken).period);
        changed(broken, |parts| parts.taken_off += period)
    }),
];

/// In how many cases some bound that is not 0 has another breakdown by a reading.
fn cases_that_tell(reading: fn(&Broken) -> Breakdown) -> usize {
    let differing = answers().filter(|(jobs, settings, breakdowns)| {
        let mut found = breakdowns.iter().enumerate();
        found.any(|(index, parts)| {
            let broken = Broken {
                jobs,
                settings,
                index,
                parts: *parts,
            };
            parts.decided != 0 && reading(&broken) != *parts
        })
    });
    differing.count()
}

#[test]
fn some_breakdowns_differ_by_other_readings() {
    let right: fn(&Broken) -> Breakdown = |broken| at_time(broken, broken.jobs, broken.finish());
    assert_eq!(cases_that_tell(right), 0);
    for (name, least, reading) in READINGS_OF_INSTANCES.iter().chain(&READINGS_OF_AMOUNTS) {
        let differing = cases_that_tell(*reading);
        assert!(differing >= *least, "{name}: {differing} cases");
    }
}
