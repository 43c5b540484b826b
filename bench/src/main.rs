//! Measures the product's compiled code against Rust code, both sides in one run, and prints a line
//! for each figure.
//!
//! Words: `quick` measures less; `seed=N` draws other lists; letters such as `ad` name the measures
//! to run instead of all, or, against another version of the product, instead of those that have it
//! for their other side; `placed` compares the plans of such a version by the placed set alone.

mod calls;
mod counted;
mod delayed_families;
mod families;
mod late_families;
mod library;
mod lists;
mod measures;
mod opponent;
mod plain;
mod pruned;
mod random;
mod report;
// Where another version is the other side, its entries are called in place of these.
#[cfg_attr(before, allow(dead_code))]
mod same;
mod timing;

use measures::Scale;
use std::time::Duration;
use timing::Effort;

/// A measure with its letter.
type Measure = (char, fn(&Scale));

const MEASURES: [Measure; 9] = [
    ('a', measures::same_algorithm::run),
    ('b', measures::pruned_search::run),
    ('c', measures::slowest_list::run),
    ('d', measures::hand_ins::run),
    ('e', measures::mean_plan::run),
    ('f', measures::same_bytes::run),
    ('g', measures::loader::run),
    ('h', measures::breakdown::run),
    ('i', measures::gate::run),
];

/// What the words on the command line ask for.
struct Request {
    quick: bool,
    seed: u64,
    placed: bool,
    letters: String,
}

impl Request {
    fn of_words(words: impl Iterator<Item = String>) -> Option<Request> {
        let all: String = MEASURES.map(|(letter, _)| letter).iter().collect();
        let mut request = Request {
            quick: false,
            seed: 1,
            placed: false,
            letters: if cfg!(before) {
                "acde".into()
            } else {
                all.clone()
            },
        };
        let is_letter = |letter| all.contains(letter);
        for word in words {
            if word == "quick" {
                request.quick = true;
            } else if word == "placed" {
                request.placed = true;
            } else if let Some(seed) = word.strip_prefix("seed=") {
                request.seed = seed.parse().ok()?;
            } else if word.chars().all(is_letter) {
                request.letters = word;
            } else {
                return None;
            }
        }
        Some(request)
    }

    fn scale(&self) -> Scale {
        let pick = |quick: usize, full: usize| if self.quick { quick } else { full };
        Scale {
            seed: self.seed,
            placed: self.placed,
            lists: pick(100, 400),
            hand_ins: 3000,
            pruned_lists: pick(10, 40),
            search_work: pick(200_000_000, 8_000_000_000) as u64,
            effort: Effort {
                pairs: pick(15, 61),
                batch_time: Duration::from_millis(4),
            },
        }
    }
}

fn main() {
    let Some(request) = Request::of_words(std::env::args().skip(1)) else {
        eprintln!("usage: run [quick] [seed=N] [placed] [letters of measures]");
        std::process::exit(2);
    };
    println!("seed {}", request.seed);
    for (letter, run) in MEASURES {
        if request.letters.contains(letter) {
            run(&request.scale());
        }
    }
}
