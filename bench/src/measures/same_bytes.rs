//! Measure f: the test for same bytes, against the loop over single bytes, Rust's equality of slices
//! and C's memcmp.

use crate::library;
use crate::measures::Scale;
use crate::random::Random;
use crate::report::{self, Goal};
use crate::timing::{alternate, Effort, Sides};
use std::ffi::{c_int, c_void};
use std::hint::black_box;

/// A test for same bytes.
type Same = fn(&[u8], &[u8]) -> bool;

/// One record, a hand-in of eight jobs, and two longer blocks, of which one ends in three odd bytes.
const LENGTHS: [usize; 4] = [4, 32, 4096, 1_000_003];

/// How many times faster than the loop over single bytes the product is to be, from a length on.
const GOAL: f64 = 2.5;
const GOAL_FROM: usize = 4096;

/// Blocks of each length up to this one are compared before any time is taken.
const CHECKED: usize = 300;

/// The bytes of the blocks that are compared in one run, so that they stay near the processor; a
/// longer block is compared alone.
const RUN_BYTES: usize = 16384;

/// Where the key and the first hand-in lie.
const ALIGNMENT: usize = 64;

extern "C" {
    fn memcmp(a: *const c_void, b: *const c_void, length: usize) -> c_int;
}

fn slices_equal(a: &[u8], b: &[u8]) -> bool {
    a == b
}

fn memcmp_equal(a: &[u8], b: &[u8]) -> bool {
    // SAFETY: both slices have the length that is given.
    a.len() == b.len() && unsafe { memcmp(a.as_ptr().cast(), b.as_ptr().cast(), a.len()) } == 0
}

/// Bytes from a multiple of `ALIGNMENT` on, since memcmp's time depends on where blocks lie.
struct Placed {
    buffer: Vec<u8>,
    start: usize,
}

impl Placed {
    fn of_bytes(bytes: &[u8]) -> Placed {
        let mut buffer = vec![0; ALIGNMENT + bytes.len()];
        let start = buffer.as_ptr().align_offset(ALIGNMENT);
        buffer.truncate(start + bytes.len());
        buffer[start..].copy_from_slice(bytes);
        Placed { buffer, start }
    }

    fn bytes(&self) -> &[u8] {
        &self.buffer[self.start..]
    }
}

/// A key and the hand-ins that are compared with it, one after the other.
struct Blocks {
    key: Placed,
    hand_ins: Placed,
}

impl Blocks {
    /// Hand-ins that are the key, or that differ from it in the last byte.
    fn of_length(random: &mut Random, length: usize, last_differs: bool) -> Blocks {
        let key = bytes(random, length);
        let mut hand_in = key.clone();
        if last_differs {
            hand_in[length - 1] ^= 1;
        }
        let count = (RUN_BYTES / length).max(1);
        Blocks {
            key: Placed::of_bytes(&key),
            hand_ins: Placed::of_bytes(&hand_in.repeat(count)),
        }
    }

    /// The hand-ins, one after the other.
    fn each(&self) -> impl ExactSizeIterator<Item = &[u8]> {
        self.hand_ins.bytes().chunks_exact(self.key.bytes().len())
    }

    /// Checks that each hand-in gets Rust's answer.
    fn check(&self) {
        for hand_in in self.each() {
            check_pair(self.key.bytes(), hand_in);
        }
    }

    /// Compares each hand-in with the key.
    fn pass(&self, same: Same) {
        for hand_in in self.each() {
            black_box(same(black_box(self.key.bytes()), black_box(hand_in)));
        }
    }

    /// The mean seconds of the product and of another test.
    fn time(&self, effort: Effort, other: Same) -> Sides {
        let times = alternate(
            effort,
            || self.pass(library::same_bytes),
            || self.pass(other),
        );
        times.per(self.each().len())
    }
}

fn bytes(random: &mut Random, length: usize) -> Vec<u8> {
    (0..length).map(|_| random.number() as u8).collect()
}

/// Checks that two blocks get Rust's answer from the product and from the loop over single bytes.
fn check_pair(a: &[u8], b: &[u8]) {
    let expected = a == b;
    assert_eq!(library::same_bytes(a, b), expected, "same bytes differ");
    assert_eq!(library::same_singly(a, b), expected, "single bytes differ");
}

/// Checks a block against itself, against each block that differs from it in one place, and against
/// one that is a byte longer, either way round.
fn check_block(block: &[u8]) {
    let mut other = block.to_vec();
    check_pair(block, &other);
    for place in 0..block.len() {
        other[place] ^= 1 << (place % 8);
        check_pair(block, &other);
        other[place] = block[place];
    }
    other.push(0);
    check_pair(block, &other);
    check_pair(&other, block);
}

pub fn run(scale: &Scale) {
    let random = &mut Random::of_measure(scale.seed, 9);
    for length in 0..=CHECKED {
        check_block(&bytes(random, length));
    }
    for length in LENGTHS {
        for (last_differs, kind) in [(false, "equal"), (true, "last differs")] {
            let blocks = Blocks::of_length(random, length, last_differs);
            blocks.check();
            let name = format!("f {length} bytes, {kind}");
            let goal = (GOAL_FROM <= length).then_some(Goal::AtLeast(GOAL));
            let times = blocks.time(scale.effort, library::same_singly);
            report::faster(&name, &times, "bytes", goal);
            let times = blocks.time(scale.effort, slices_equal);
            report::within(&name, &times, "slices", None);
            let times = blocks.time(scale.effort, memcmp_equal);
            report::within(&name, &times, "memcmp", None);
        }
    }
}
