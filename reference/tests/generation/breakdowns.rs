//! What the cases of breakdowns must hold, and what must hold of every breakdown.

use reference::breakdown::{breakdowns_of_records, Breakdown, BREAKDOWN_BYTES};
use reference::configuration::{settings_of_records, Setting, NOT_PLACED};
use reference::entries::BREAKDOWN;
use reference::generation::features::Feature;
use reference::generation::{Case, BREAKDOWNS};
use reference::jobs::Job;
use reference::response_time::bound;

use crate::minimums::summary;
use crate::{accepted, job_records};

/// The jobs, the settings and the breakdowns of each accepted case.
pub fn answers() -> impl Iterator<Item = (Vec<Job>, Vec<Setting>, Vec<Breakdown>)> {
    let answer = |case: &Case| {
        let jobs = job_records(case);
        let settings = settings_of_records(&case.input.blocks[1]);
        let written = &case.output.blocks[0][..BREAKDOWN_BYTES * jobs.len()];
        (jobs, settings, breakdowns_of_records(written))
    };
    accepted(&BREAKDOWNS, BREAKDOWN).map(answer)
}

#[test]
fn the_amounts_make_the_bound() {
    let mut compared = 0;
    for (jobs, settings, breakdowns) in answers() {
        assert_eq!(jobs.len(), breakdowns.len());
        for (index, found) in breakdowns.iter().enumerate() {
            let [own_work, share, above, delay, taken_off] = found.amounts().map(u64::from);
            let bound = bound(&jobs, &settings, index);
            assert_eq!(
                own_work + share + above + delay,
                u64::from(bound) + taken_off
            );
            assert_eq!(found.bound(), bound);
            compared += 1;
        }
    }
    assert!(compared >= 2_500, "{compared} bounds");
}

#[test]
fn a_bound_of_0_gives_zeros_and_other_bounds_their_own_numbers() {
    for (jobs, settings, breakdowns) in answers() {
        for (index, found) in breakdowns.iter().enumerate() {
            let (job, setting) = (&jobs[index], &settings[index]);
            if bound(&jobs, &settings, index) == 0 {
                assert_eq!(*found, Breakdown::default());
                continue;
            }
            assert_ne!(setting.policy, NOT_PLACED);
            assert!((1..=setting.policy).contains(&found.decided));
            let instance = u32::from(found.instance);
            assert_eq!(found.own_work, (instance + 1) * u32::from(job.cost));
            assert_eq!(found.delay, u32::from(job.delay));
            assert_eq!(found.taken_off, instance * u32::from(job.period));
        }
    }
}

/// How many jobs are at least to show a feature.
const MINIMUMS: [(Feature, usize); 16] = [
    (Feature::NotPlaced, 200),
    (Feature::NoBound, 300),
    (Feature::AloneLater, 60),
    (Feature::FirstLater, 90),
    (Feature::Second, 700),
    (Feature::SecondLater, 150),
    (Feature::SecondDelayed, 300),
    (Feature::SecondDelayedLater, 90),
    (Feature::SecondBelow, 350),
    (Feature::Equal, 50),
    (Feature::EqualApart, 30),
    (Feature::ReachedAgain, 35),
    (Feature::ReachedLate, 50),
    (Feature::BelowNotPlaced, 300),
    (Feature::LongestDelay, 50),
    (Feature::LongAmount, 50),
];

#[test]
fn minimums_of_features() {
    for (feature, least) in MINIMUMS {
        let jobs = summary().breakdowns.features[feature as usize];
        assert!(jobs >= least, "{feature:?}: {jobs} jobs");
    }
    for jobs in 1..=8 {
        let cases = answers().filter(|(list, ..)| list.len() == jobs).count();
        assert!(cases >= 5, "{cases} cases of {jobs} jobs");
    }
}

/// Jobs, each with its J, C, T and D; their levels, policies and quanta; and the breakdowns of
/// their bounds.
type Worked = ([[u16; 4]; 2], [[u8; 3]; 2], [[u32; 7]; 2]);

const WORKED: [Worked; 6] = [
    (
        [[0, 6, 8, 8], [0, 5, 22, 22]],
        [[2, 2, 3], [2, 2, 1]],
        [[0, 1, 6, 2, 0, 0, 0], [0, 1, 5, 15, 0, 0, 0]],
    ),
    (
        [[0, 4, 20, 20], [0, 2, 20, 20]],
        [[1, 2, 1], [1, 2, 4]],
        [[0, 2, 4, 2, 0, 0, 0], [0, 1, 2, 1, 0, 0, 0]],
    ),
    (
        [[1, 1, 3, 7], [2, 3, 6, 13]],
        [[1, 2, 4], [1, 2, 4]],
        [[0, 1, 1, 4, 0, 1, 0], [0, 2, 3, 2, 0, 2, 0]],
    ),
    (
        [[0, 1, 2, 6], [2, 2, 5, 13]],
        [[1, 2, 4], [1, 2, 4]],
        [[1, 2, 2, 4, 0, 0, 2], [0, 2, 2, 2, 0, 2, 0]],
    ),
    (
        [[0, 26, 70, 70], [0, 62, 100, 118]],
        [[0, 0, 0], [1, 1, 0]],
        [[0; 7], [4, 1, 310, 0, 208, 0, 400]],
    ),
    (
        [[0, 1, 4, 4], [1, 2, 3, 4]],
        [[1, 1, 0], [2, 1, 0]],
        [[0, 1, 1, 0, 0, 0, 0], [0, 1, 2, 0, 1, 1, 0]],
    ),
];

#[test]
fn worked_calls_are_stored() {
    for (times, settings, expected) in WORKED {
        let is_stored = answers().any(|(jobs, configuration, breakdowns)| {
            let jobs = jobs
                .iter()
                .map(|job| [u16::from(job.delay), job.cost, job.period, job.deadline]);
            let records = configuration
                .iter()
                .map(|setting| [setting.level, setting.policy, setting.quantum]);
            let found = breakdowns.iter().map(|found| {
                let [own_work, share, above, delay, taken_off] = found.amounts();
                let (instance, decided) = (found.instance.into(), found.decided.into());
                [instance, decided, own_work, share, above, delay, taken_off]
            });
            jobs.eq(times) && records.eq(settings) && found.eq(expected)
        });
        assert!(is_stored, "{times:?} {settings:?}");
    }
}
