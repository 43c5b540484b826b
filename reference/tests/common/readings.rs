//! The bound by the text about delays, and by other readings of it.

use reference::configuration::{Setting, ROUND_ROBIN};
use reference::generation::effects::without_delays;
use reference::generation::long_deadlines::finish_by_recurrence;
use reference::jobs::Job;
use reference::response_time::{jobs_above, layer_demand, lesser_bound, neighbours, INSTANCES};

/// A way to find the bound of a job in a configuration.
pub type Reading = fn(&[Job], &[Setting], usize) -> u16;

/// Where a job's own delay counts.
#[derive(Clone, Copy)]
struct OwnDelay {
    /// "A job's own responses each gain its J".
    in_responses: bool,
    /// "an instance closes the run when its finish plus J is by (j+1)·T".
    in_closing: bool,
}

/// Where the own delay counts by the text.
const BY_TEXT: OwnDelay = OwnDelay {
    in_responses: true,
    in_closing: true,
};

/// The largest response of a job below these jobs, if there is a bound.
fn largest_response(
    job: &Job,
    above: &[Job],
    own: OwnDelay,
    layer_demand: impl Fn(u64) -> u64,
) -> Option<u16> {
    let (period, deadline) = (u64::from(job.period), u64::from(job.deadline));
    let delay_if = |counts: bool| u64::from(job.delay) * u64::from(counts);
    let mut largest = 0;
    for instance in 0..INSTANCES {
        let release = instance * period;
        let demand = layer_demand((instance + 1) * u64::from(job.cost));
        let finish = finish_by_recurrence(demand, above, 1, release + deadline)?;
        // By the text no response is below 0.
        let response = (finish + delay_if(own.in_responses)).saturating_sub(release);
        if response > deadline {
            return None;
        }
        largest = largest.max(response);
        if finish + delay_if(own.in_closing) <= release + period {
            return Some(largest as u16);
        }
    }
    None
}

/// The bound of a placed job whose own delay counts in these places.
fn bound_with(jobs: &[Job], settings: &[Setting], index: usize, own: OwnDelay) -> u16 {
    let mut above = jobs_above(jobs, settings, index);
    let first = largest_response(&jobs[index], &above, own, |own_work| {
        layer_demand(settings, index, own_work)
    });
    if settings[index].policy != ROUND_ROBIN {
        return first.unwrap_or(0);
    }
    above.extend(neighbours(jobs, settings, index));
    let second = largest_response(&jobs[index], &above, own, |own_work| own_work);
    lesser_bound(first.unwrap_or(0), second.unwrap_or(0))
}

/// The bound of a placed job by the text.
pub fn bound_with_delays(jobs: &[Job], settings: &[Setting], index: usize) -> u16 {
    bound_with(jobs, settings, index, BY_TEXT)
}

/// The bound of a placed job if the other jobs have other delays, given by a job and its setting.
fn bound_with_others(
    jobs: &[Job],
    settings: &[Setting],
    index: usize,
    delay: impl Fn(&Job, &Setting) -> u8,
) -> u16 {
    let mut changed = jobs.to_vec();
    for (job, setting) in changed.iter_mut().zip(settings) {
        job.delay = delay(job, setting);
    }
    changed[index].delay = jobs[index].delay;
    bound_with_delays(&changed, settings, index)
}

/// The bound without the delays of jobs whose level is chosen, the own level being given beside it.
fn bound_without(
    jobs: &[Job],
    settings: &[Setting],
    index: usize,
    is_chosen: fn(u8, u8) -> bool,
) -> u16 {
    bound_with_others(jobs, settings, index, |job, setting| {
        if is_chosen(setting.level, settings[index].level) {
            0
        } else {
            job.delay
        }
    })
}

/// The bound if responses are compared with the deadline without the own delay.
fn bound_by_longer_deadline(jobs: &[Job], settings: &[Setting], index: usize) -> u16 {
    let mut changed = jobs.to_vec();
    changed[index].deadline += u16::from(jobs[index].delay);
    bound_with_delays(&changed, settings, index)
}

/// Readings that are not the right one, with the least number of cases that are to tell them.
pub const READINGS_OF_DELAYS: [(&str, usize, Reading); 9] = [
    ("no delay at all", 300, |jobs, settings, index| {
        bound_with_delays(&without_delays(jobs), settings, index)
    }),
    ("no own delay", 300, |jobs, settings, index| {
        let own = OwnDelay {
            in_responses: false,
            in_closing: false,
        };
        bound_with(jobs, settings, index, own)
    }),
    ("no own delay in closing", 20, |jobs, settings, index| {
        let own = OwnDelay {
            in_closing: false,
            ..BY_TEXT
        };
        bound_with(jobs, settings, index, own)
    }),
    ("none against deadlines", 60, bound_by_longer_deadline),
    ("no delay of others", 150, |jobs, settings, index| {
        bound_without(jobs, settings, index, |_, _| true)
    }),
    ("no delay of neighbours", 60, |jobs, settings, index| {
        bound_without(jobs, settings, index, |level, own| level == own)
    }),
    ("no delay of jobs above", 100, |jobs, settings, index| {
        bound_without(jobs, settings, index, |level, own| level < own)
    }),
    ("the own delay for others", 150, |jobs, settings, index| {
        bound_with_others(jobs, settings, index, |_, _| jobs[index].delay)
    }),
    ("one release more at most", 60, |jobs, settings, index| {
        bound_with_others(jobs, settings, index, |job, _| {
            u16::from(job.delay).min(job.period) as u8
        })
    }),
];
