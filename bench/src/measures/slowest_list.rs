//! Measure c: the slowest lists that searches over heavy families find, range 1 to 64, one with
//! deadlines within the periods, one with deadlines past them and one with delays too, and the
//! first families against plain iteration.

use crate::calls::Case;
use crate::counted::{work, Counted};
use crate::delayed_families::DELAYED_FAMILIES;
use crate::families::{mutated, Changes, Family, FAMILIES};
use crate::late_families::LATE_FAMILIES;
use crate::library;
use crate::measures::{check_opponent, check_plans, time_plans, Scale};
use crate::opponent::OPPONENT;
use crate::plain;
use crate::random::Random;
use crate::report::{self, Goal};
use crate::same::job::Job;
use crate::same::planner::Raising;
use crate::timing::{Effort, Sides};
use std::cmp::Reverse;

/// The goal for how many times faster than plain iteration.
const PLAIN_GOAL: f64 = 10.0;

const RANGE: (u8, u8) = (1, 64);

/// The number of lists that the search keeps.
const KEPT: usize = 4;

/// The number of lists of each family on which plain iteration is run.
const PLAIN_LISTS: usize = 24;

/// The work of a call beside that of its bounds.
const CALL_WORK: u64 = 1_000;

/// A search for the slowest list.
struct Search {
    /// The name of its line.
    name: &'static str,
    /// The families from which it starts.
    families: &'static [Family],
    /// The number of lists of each family from which it starts.
    starts: usize,
    /// What changes may give the jobs of the lists.
    changes: Changes,
    /// How many times the work of the scale it may spend: more where a list takes more work.
    times_work: u64,
    /// How much of that goes to the last climb, from the lists found, in parts of what goes to each
    /// family.
    last_shares: u64,
    /// The most pairs of batches in which the list that it finds is measured.
    most_pairs: usize,
    /// The goal for that list, in seconds.
    goal: f64,
    /// The source of its numbers.
    source: u64,
}

const SEARCHES: [Search; 3] = [
    Search {
        name: "c slowest list",
        families: &FAMILIES,
        starts: 100,
        changes: Changes::WithinPeriod,
        times_work: 1,
        last_shares: 0,
        most_pairs: usize::MAX,
        goal: 0.1,
        source: 3,
    },
    Search {
        name: "c slowest list, deadlines past the period",
        families: &LATE_FAMILIES,
        starts: 100,
        changes: Changes::PastPeriod,
        times_work: 5,
        last_shares: 5,
        most_pairs: 7,
        goal: 0.5,
        source: 10,
    },
    Search {
        name: "c slowest list with delays",
        families: &DELAYED_FAMILIES,
        starts: 30,
        changes: Changes::Delays,
        times_work: 5,
        last_shares: 6,
        most_pairs: 7,
        goal: 1.0,
        source: 14,
    },
];

/// A list with the work that planning it takes.
struct Weighed {
    work: u64,
    jobs: Vec<Job>,
}

impl Weighed {
    fn new(jobs: Vec<Job>) -> Weighed {
        let case = Case::plan(&jobs, RANGE);
        Weighed {
            work: work(&case, &Counted::default(), Raising),
            jobs,
        }
    }
}

impl Search {
    /// The list of most work that comes from some lists: those of most work are changed again and
    /// again, until the work is spent.
    fn climb(&self, random: &mut Random, mut kept: Vec<Weighed>, most_work: u64) -> Weighed {
        let mut spent: u64 = kept.iter().map(|each| each.work).sum();
        kept.sort_by_key(|each| Reverse(each.work));
        kept.truncate(KEPT);
        while spent < most_work {
            let place = random.between(0, kept.len() - 1);
            let next = Weighed::new(mutated(random, &kept[place].jobs, self.changes));
            spent += next.work + CALL_WORK;
            if kept[place].work < next.work {
                kept[place] = next;
            }
        }
        kept.sort_by_key(|each| Reverse(each.work));
        kept.swap_remove(0)
    }

    /// The list of most work: a climb from lists of each family, then one from the lists found.
    fn slowest(&self, random: &mut Random, most_work: u64) -> Weighed {
        let share = most_work / (self.families.len() as u64 + self.last_shares);
        let of_family = |(_, list): &Family| {
            let starts = (0..self.starts)
                .map(|_| Weighed::new(list(random)))
                .collect();
            self.climb(random, starts, share)
        };
        let found = self.families.iter().map(of_family).collect();
        self.climb(random, found, share * self.last_shares)
    }

    fn run(&self, scale: &Scale) {
        let random = &mut Random::of_measure(scale.seed, self.source);
        let found = self.slowest(random, scale.search_work * self.times_work);
        let cases = [Case::plan(&found.jobs, RANGE)];
        check_opponent(scale, &cases);
        let effort = Effort {
            pairs: scale.effort.pairs.min(self.most_pairs),
            ..scale.effort
        };
        let times = time_plans(&cases, effort, library::plan, OPPONENT.plan);
        report::within(self.name, &times, OPPONENT.name, Some(self.goal));
        let texts: Vec<String> = found.jobs.iter().map(|job| self.text(job)).collect();
        report::note(&format!("seed {}: {}", scale.seed, texts.join(" ")));
    }

    /// The numbers of a job, with the delay where the search has delays.
    fn text(&self, job: &Job) -> String {
        let times = format!("{},{},{}", job.cost, job.period, job.deadline);
        match self.changes {
            Changes::WithinPeriod | Changes::PastPeriod => format!("({times})"),
            Changes::Delays => format!("({times},{})", job.delay),
        }
    }
}

/// Plans of a family against plain iteration.
fn against_plain(random: &mut Random, (name, list): Family, effort: Effort) -> (String, Sides) {
    let cases: Vec<Case> = (0..PLAIN_LISTS)
        .map(|_| Case::plan(&list(random), RANGE))
        .collect();
    check_plans(&cases, library::plan, plain::plan);
    let times = time_plans(&cases, effort, library::plan, plain::plan);
    (format!("c {name}"), times)
}

/// Each family against plain iteration; the goal is for the family that is the heaviest for plain
/// iteration.
fn run_families(scale: &Scale) {
    let random = &mut Random::of_measure(scale.seed, 6);
    let effort = Effort {
        pairs: 3,
        ..scale.effort
    };
    let lines = FAMILIES.map(|family| against_plain(random, family, effort));
    let heaviest = lines
        .iter()
        .map(|(_, times)| times.other)
        .fold(0.0, f64::max);
    for (name, times) in &lines {
        let goal = (times.other == heaviest).then_some(Goal::AtLeast(PLAIN_GOAL));
        report::faster(name, times, "plain", goal);
    }
}

pub fn run(scale: &Scale) {
    for search in SEARCHES {
        search.run(scale);
    }
    run_families(scale);
}
