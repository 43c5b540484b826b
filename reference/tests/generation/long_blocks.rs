//! What the cases of the test for same bytes must hold: blocks that differ at every place of short
//! ones, and in every kind of part of long ones.

use reference::entries::same_bytes::{size_of_part, LONG_BLOCKS};
use reference::entries::SAME_BYTES;
use reference::generation::SHORT_DEADLINES;

use crate::stored_of_kind;

/// The sizes of parts, the odd bytes at the end being parts of one byte.
const SIZES: [usize; 4] = [128, 16, 4, 1];

/// Two blocks.
type Pair = (&'static [u8], &'static [u8]);

/// The blocks of the calls on long blocks.
fn long_pairs() -> Vec<Pair> {
    let cases = stored_of_kind(&LONG_BLOCKS).iter();
    cases
        .map(|case| {
            let [first, second] = case.input.blocks.as_slice() else {
                panic!("a test for same bytes is given two blocks")
            };
            (first.as_slice(), second.as_slice())
        })
        .collect()
}

/// The places at which two blocks of one length differ.
fn differing_places((first, second): Pair) -> Vec<usize> {
    let places = 0..first.len();
    places
        .filter(|place| first[*place] != second[*place])
        .collect()
}

/// The length of blocks that differ in one place alone, and that place.
fn single_differences() -> Vec<(usize, usize)> {
    let pairs = long_pairs().into_iter();
    pairs
        .filter(|(first, second)| first.len() == second.len())
        .filter_map(|pair| match differing_places(pair).as_slice() {
            [place] => Some((pair.0.len(), *place)),
            _ => None,
        })
        .collect()
}

#[test]
fn short_blocks_differ_at_every_place() {
    let mut places = [false; 48];
    for case in stored_of_kind(&SHORT_DEADLINES) {
        if case.input.head == SAME_BYTES {
            let (first, second) = (&case.input.blocks[0], &case.input.blocks[1]);
            let mut pairs = first.iter().zip(second);
            let place = pairs.position(|(one, other)| one != other);
            if let (true, Some(place)) = (first.len() == second.len(), place) {
                places[place] = true;
            }
        }
    }
    assert!(places.iter().all(|differs| *differs));
}

#[test]
fn long_blocks_have_up_to_600_bytes() {
    let lengths = || {
        long_pairs()
            .into_iter()
            .flat_map(|(one, other)| [one.len(), other.len()])
    };
    assert_eq!(lengths().min(), Some(0));
    assert_eq!(lengths().max(), Some(600));
    for size in SIZES {
        let has_parts = lengths().filter(|length| *length > 0 && length % size == 0);
        assert!(has_parts.count() >= 20, "whole parts of {size} bytes");
    }
}

#[test]
fn long_blocks_differ_around_every_multiple() {
    let differs_at = |place| {
        single_differences()
            .iter()
            .any(|(_, other)| *other == place)
    };
    for multiple in (4..600).step_by(4) {
        let mut around = [multiple - 1, multiple, multiple + 1].into_iter();
        assert!(around.any(differs_at), "around {multiple}");
    }
    for multiple in (16..600).step_by(16) {
        assert!(differs_at(multiple - 1), "before {multiple}");
        assert!(differs_at(multiple), "at {multiple}");
    }
    assert!(differs_at(0) && differs_at(599));
}

#[test]
fn long_blocks_differ_in_parts_of_every_size() {
    for size in SIZES {
        let is_in_part = |(length, place): &&(usize, usize)| size_of_part(*place, *length) == size;
        let differences = single_differences();
        let in_parts: Vec<_> = differences.iter().filter(is_in_part).collect();
        assert!(in_parts.len() >= 20, "parts of {size}: {}", in_parts.len());
        // The part before has the same bytes, so that the difference is found in this one alone.
        let after_another = in_parts.iter().filter(|(_, place)| *place >= size);
        assert!(after_another.count() >= 10, "parts of {size}");
        let last = in_parts
            .iter()
            .filter(|(length, place)| place + 1 == *length);
        assert!(last.count() >= 3, "last byte in parts of {size}");
        let first = in_parts.iter().filter(|(_, place)| *place == 0);
        assert!(first.count() >= 3, "first byte in parts of {size}");
    }
}

#[test]
fn long_blocks_with_all_sizes_of_parts_differ_in_each() {
    for size in SIZES {
        let has_all = |length: usize| {
            length >= 128 && length % 128 >= 16 && length % 16 >= 4 && length % 4 >= 1
        };
        let mut differences = single_differences().into_iter();
        let is_met = differences
            .any(|(length, place)| has_all(length) && size_of_part(place, length) == size);
        assert!(is_met, "parts of {size}");
    }
}

#[test]
fn long_blocks_differ_at_every_place_of_a_part() {
    for place_in_part in 0..16 {
        let differences = single_differences().into_iter();
        let in_large_parts = differences
            .filter(|(length, place)| size_of_part(*place, *length) >= 16)
            .filter(|(_, place)| place % 16 == place_in_part);
        assert!(in_large_parts.count() >= 2, "place {place_in_part}");
    }
}

/// The sum and the exclusive or of a block's records, without odd bytes at the end.
fn sums_of_records(block: &[u8]) -> (u64, u32) {
    let records = || {
        let records = block.chunks_exact(4);
        records.map(|record| u32::from_be_bytes(record.try_into().unwrap()))
    };
    let exclusive_or = records().fold(0, |sum, record| sum ^ record);
    (records().map(u64::from).sum(), exclusive_or)
}

#[test]
fn long_blocks_differ_in_several_places() {
    let pairs = long_pairs().into_iter();
    let several = pairs
        .filter(|(first, second)| first.len() == second.len())
        .filter(|pair| differing_places(*pair).len() > 1);
    let (exchanged, others): (Vec<Pair>, Vec<Pair>) =
        several.partition(|(one, other)| sums_of_records(one) == sums_of_records(other));
    assert!(exchanged.len() >= 8, "{}", exchanged.len());
    assert!(others.len() >= 8, "{}", others.len());
}

#[test]
fn long_blocks_are_equal_or_have_other_lengths() {
    let pairs = long_pairs();
    let equal = pairs.iter().filter(|(first, second)| first == second);
    assert!(equal.count() >= 20);
    let others = pairs.iter().filter(|(one, other)| one.len() != other.len());
    let (beginnings, different): (Vec<&Pair>, Vec<&Pair>) =
        others.partition(|(one, other)| one.starts_with(other) || other.starts_with(one));
    for group in [&beginnings, &different] {
        let shorter_first = group.iter().filter(|(one, other)| one.len() < other.len());
        let shorter_first = shorter_first.count();
        assert!(shorter_first >= 5 && group.len() - shorter_first >= 5);
    }
    let same_low_byte = |(one, other): &&&Pair| one.len() % 256 == other.len() % 256;
    assert!(beginnings.iter().filter(same_low_byte).count() >= 4);
    let ends_in_zeros = |(one, other): &&&Pair| {
        let (short, long) = if one.len() < other.len() {
            (one, other)
        } else {
            (other, one)
        };
        long[short.len()..].iter().all(|byte| *byte == 0)
    };
    assert!(beginnings.iter().filter(ends_in_zeros).count() >= 3);
}
