//! Times of two sides, measured in turn.

use std::time::{Duration, Instant};

/// Seconds of the product's side and of the other one.
#[derive(Clone, Copy)]
pub struct Sides {
    pub ours: f64,
    pub other: f64,
}

/// How often two sides are measured.
#[derive(Clone, Copy)]
pub struct Effort {
    /// The number of pairs of batches, one of each side.
    pub pairs: usize,
    /// The time that a batch takes at least.
    pub batch_time: Duration,
}

impl Sides {
    /// Both times divided by a number.
    pub fn per(self, number: usize) -> Sides {
        Sides {
            ours: self.ours / number as f64,
            other: self.other / number as f64,
        }
    }

    /// The product's time in parts of the other's.
    pub fn ratio(&self) -> f64 {
        self.ours / self.other
    }

    /// How many times faster than the other side the product is.
    pub fn times_faster(&self) -> f64 {
        self.other / self.ours
    }
}

/// The mean seconds of so many runs.
fn mean_seconds(runs: usize, run: &mut impl FnMut()) -> f64 {
    let start = Instant::now();
    for _ in 0..runs {
        run();
    }
    start.elapsed().as_secs_f64() / runs as f64
}

/// The number of runs of a batch, from the second run: the first one warms up.
fn runs_of_batch(batch_time: Duration, run: &mut impl FnMut()) -> usize {
    run();
    let once = mean_seconds(1, run).max(1e-9);
    (batch_time.as_secs_f64() / once).ceil().max(1.0) as usize
}

/// The time of one run of each side. Batches of both sides alternate, and so does the side that is
/// first; each batch of one side is paired with the next one of the other, so that the speed of the
/// machine is about the same for both. The times are those of the pair with the median ratio.
pub fn alternate(effort: Effort, mut ours: impl FnMut(), mut other: impl FnMut()) -> Sides {
    let ours_runs = runs_of_batch(effort.batch_time, &mut ours);
    let other_runs = runs_of_batch(effort.batch_time, &mut other);
    let mut pairs: Vec<Sides> = Vec::new();
    for pair in 0..effort.pairs {
        let first = (pair % 2 == 1).then(|| mean_seconds(other_runs, &mut other));
        let ours = mean_seconds(ours_runs, &mut ours);
        let other = first.unwrap_or_else(|| mean_seconds(other_runs, &mut other));
        pairs.push(Sides { ours, other });
    }
    pairs.sort_by(|a, b| a.ratio().total_cmp(&b.ratio()));
    pairs[pairs.len() / 2]
}
