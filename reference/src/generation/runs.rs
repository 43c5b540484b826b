//! Lists with a configuration in which the first run of one job's instances is of a wanted kind.

use crate::configuration::QuantumRange;
use crate::generation::configured::{first_drawn, Configured};
use crate::generation::layers::{add_members, built, Drawing};
use crate::generation::long_deadlines::{
    closes_after_last, deadline_beyond, first_run_by_recurrence, least_period, set_period,
    ABOVE_PERIODS,
};
use crate::generation::random::Random;
use crate::jobs::{LONGEST_DEADLINE, LONGEST_PERIOD};
use crate::response_time::{End, Run, INSTANCES};

/// Scales of costs in turn, from single ticks up to costs with which the last instances finish
/// after millions of ticks.
const SCALES: [u16; 9] = [1, 5_000, 20, 1_000, 4, 100, 5_000, 400, 2_000];

/// The last instance of a run that does not end before.
pub const LAST: u64 = INSTANCES - 1;

/// What the first run of a job's instances is to show.
#[derive(Clone, Copy, Debug, PartialEq, Eq)]
pub enum Wanted {
    /// It closes at an instance from the first number to the second.
    Closes(u64, u64),
    /// It closes, and its largest response is neither at the first instance nor at the last.
    LargestInside,
    /// A response exceeds the deadline after one that does not.
    OverDeadlineLater,
    /// It does not close, and one more instance would close it.
    ClosesTooLate,
    /// It does not close.
    StillRunning,
}

/// The runs that lists are drawn for in turn.
const WANTED: [Wanted; 10] = [
    Wanted::Closes(0, 0),
    Wanted::Closes(1, 1),
    Wanted::OverDeadlineLater,
    Wanted::Closes(LAST, LAST),
    Wanted::LargestInside,
    Wanted::ClosesTooLate,
    Wanted::Closes(2, LAST - 1),
    Wanted::StillRunning,
    Wanted::Closes(2, 8),
    Wanted::Closes(LAST, LAST),
];

impl Wanted {
    /// Whether a run is of this kind.
    pub fn is_shown_by(self, run: &Run) -> bool {
        match self {
            Wanted::Closes(first, last) => {
                run.end == End::Closed && (first..=last).contains(&run.last_instance)
            }
            Wanted::LargestInside => {
                let inside = 0 < run.largest_instance && run.largest_instance < run.last_instance;
                run.end == End::Closed && inside
            }
            Wanted::OverDeadlineLater => run.end == End::OverDeadline && run.last_instance > 0,
            Wanted::ClosesTooLate | Wanted::StillRunning => run.end == End::StillRunning,
        }
    }

    /// An instance by which the run is to close, or would just not close.
    fn instance(self, random: &mut Random) -> u64 {
        let (first, last) = match self {
            Wanted::Closes(first, last) => (first, last),
            Wanted::LargestInside => (2, 40),
            Wanted::OverDeadlineLater => (1, LAST),
            Wanted::ClosesTooLate | Wanted::StillRunning => (LAST, LAST),
        };
        random.between(first as usize, last as usize) as u64
    }

    /// A period from the least one with which the run closes by that instance.
    fn period(self, random: &mut Random, least: u16) -> u16 {
        match self {
            Wanted::Closes(0, _) => least.saturating_add(random.choose(&[0, 0, 1, 9])),
            Wanted::Closes(..) | Wanted::LargestInside => least,
            Wanted::OverDeadlineLater => least.saturating_sub(random.ticks(0, 1)),
            Wanted::ClosesTooLate => least.saturating_sub(1),
            Wanted::StillRunning => least.saturating_sub(random.ticks(1, 9)),
        }
    }

    /// A deadline for the job whose run has this largest response under the longest deadline.
    fn deadline(self, random: &mut Random, period: u16, largest: u16) -> u16 {
        match self {
            Wanted::Closes(0, _) => deadline_beyond(random, period).max(largest),
            Wanted::OverDeadlineLater => {
                let any = random.ticks(largest / 2, largest - 1);
                random.choose(&[largest - 1, any])
            }
            _ => {
                let any = random.ticks(largest, LONGEST_DEADLINE);
                let longer = (largest + 1).min(LONGEST_DEADLINE);
                random.choose(&[largest, largest, longer, any, LONGEST_DEADLINE])
            }
        }
    }
}

/// Gives a job times with which its first run is the wanted one; false if they do not.
fn give_times(random: &mut Random, list: &mut Configured, index: usize, wanted: Wanted) -> bool {
    let instance = wanted.instance(random);
    let Some(least) = least_period(list, index, instance, first_run_by_recurrence) else {
        return false;
    };
    let cost = list.jobs[index].cost;
    let period = wanted.period(random, least);
    if period < cost || period > LONGEST_PERIOD {
        return false;
    }
    let largest = set_period(list, index, period).largest_response as u16;
    let deadline = wanted.deadline(random, period, largest.max(1));
    list.jobs[index].deadline = deadline;
    let run = first_run_by_recurrence(&list.jobs, &list.settings, index);
    let would_close = wanted != Wanted::ClosesTooLate || closes_after_last(list, index);
    deadline >= cost && would_close && wanted.is_shown_by(&run)
}

/// Adds jobs alone on levels, which take some part of the processor's time. The first of them may
/// have a long cost and the longest period; the runs of those below it then have many instances.
/// False if a run does not close.
pub fn add_upper_jobs(
    random: &mut Random,
    list: &mut Configured,
    count: usize,
    drawing: Drawing,
) -> bool {
    let most_percent = random.between(12, 95) / count.max(1);
    let longest = usize::from(LONGEST_PERIOD);
    for place in 0..count {
        let index = add_members(random, list, 1, drawing);
        let mut period = longest;
        if place == 0 && random.once_in(2) {
            let cost = usize::from(drawing.scale) * random.between(1, 300);
            list.jobs[index].cost = cost.min(longest / 2) as u16;
        } else {
            let percent = random.between(most_percent.div_ceil(2), most_percent);
            period = longest.min(usize::from(list.jobs[index].cost) * 100 / percent);
        }
        let run = set_period(list, index, period as u16);
        if run.end != End::Closed {
            return false;
        }
        let bound = run.bound();
        list.jobs[index].deadline = random.choose(&[bound, bound.max(period as u16)]);
    }
    true
}

/// A list whose lowest layer has a job with a wanted run; none if the draw does not give one.
fn drawn(
    random: &mut Random,
    wanted: Wanted,
    count: usize,
    drawing: Drawing,
) -> Option<Configured> {
    let size = random.choose(&[1, 1, 1, 2, 3]).min(count);
    let mut list = Configured::default();
    if !add_upper_jobs(random, &mut list, count - size, drawing) {
        return None;
    }
    let start = add_members(random, &mut list, size, drawing);
    for index in start..count {
        // The other jobs of the layer have any runs that close.
        let wanted = if index == start {
            wanted
        } else {
            random.choose(&[Wanted::Closes(0, 0), Wanted::Closes(0, LAST)])
        };
        if !give_times(random, &mut list, index, wanted) {
            return None;
        }
    }
    Some(list)
}

/// A list of two jobs or more with a full configuration, in which the first run of one job's
/// instances is of a wanted kind; none if no draw gives one.
pub fn list_with_wanted_run(
    random: &mut Random,
    wanted: Wanted,
    count: usize,
    drawing: Drawing,
) -> Option<Configured> {
    first_drawn(random, count, |random, count| {
        drawn(random, wanted, count, drawing)
    })
}

/// A list without delays in which the first run of one job's instances is of the kind that is in
/// turn. If no draw gives one, it is a list built for long deadlines.
pub fn list_with_run(
    random: &mut Random,
    turn: usize,
    count: usize,
    range: QuantumRange,
) -> Configured {
    let wanted = WANTED[turn % WANTED.len()];
    let drawing = Drawing::without_delays(range, SCALES[turn % SCALES.len()]);
    list_with_wanted_run(random, wanted, count, drawing)
        .unwrap_or_else(|| built(random, count, range, ABOVE_PERIODS))
}
