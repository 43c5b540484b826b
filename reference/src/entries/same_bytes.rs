//! Entry 8. Given: no numbers; two blocks. Answered: 1 if they are the same bytes, else 0; no
//! blocks.

use crate::configuration::same_bytes;
use crate::entries::{output_frame, Entry};
use crate::frames::Frame;
use crate::generation::random::Random;
use crate::generation::rounds::{row, Kind, Row};

pub const SAME_BYTES: u8 = 8;

/// "The test for same bytes has no refusal".
pub const ENTRY: Entry = Entry {
    number: SAME_BYTES,
    name: "same_bytes",
    answer,
    faults: |_| Some(Vec::new()),
    jobs: |_| Some(Vec::new()),
};

/// Calls on blocks that are long enough for a comparison by large parts.
pub const LONG_BLOCKS: Kind = Kind {
    name: "long blocks",
    cases: 300,
    round: &ROUND,
};

const ROUND: [Row; 8] = [
    row(SAME_BYTES, 16, other_around_a_multiple),
    row(SAME_BYTES, 1, other_inside_a_record),
    row(SAME_BYTES, 1, other_first_byte),
    row(SAME_BYTES, 1, other_last_byte),
    row(SAME_BYTES, 2, equal),
    row(SAME_BYTES, 2, other_in_several_bytes),
    row(SAME_BYTES, 1, beginning),
    row(SAME_BYTES, 1, other_beginning),
];

fn answer(input: &Frame) -> Option<Frame> {
    let ([], [first, second]) = input.parts::<u16, 0, 2>()?;
    let answer = Ok([u16::from(same_bytes(first, second))]);
    Some(output_frame(answer, []))
}

fn call(first: Vec<u8>, second: Vec<u8>) -> Frame {
    Frame {
        head: SAME_BYTES,
        numbers: Vec::new(),
        blocks: vec![first, second],
    }
}

/// The most bytes of a first block and of a second block, both short.
const SHORT_FIRST: usize = 80;
const SHORT_SECOND: usize = 48;

/// The call on short blocks that is the `turn`-th, counted from 0: equal ones, ones that differ at
/// each place in turn, and ones of unequal lengths, one being the other's start.
pub fn short_blocks(random: &mut Random, turn: usize) -> Frame {
    let round = turn / 3;
    let mut first = random.filled(SHORT_FIRST);
    match turn % 3 {
        0 => {
            let place = round % SHORT_SECOND;
            first.truncate(random.between(place + 1, SHORT_SECOND));
            let mut second = first.clone();
            second[place] ^= random.byte(1, u8::MAX);
            call(first, second)
        }
        1 => {
            first.truncate(round % (SHORT_SECOND + 1));
            call(first.clone(), first)
        }
        _ => {
            let short = random.choose(&[0, round % SHORT_SECOND]);
            let any = random.between(short + 1, SHORT_SECOND);
            let long = random.choose(&[short + 1, SHORT_SECOND, any]);
            let (short, long) = (first[..short].to_vec(), first[..long].to_vec());
            match round % 3 {
                0 => call(short, long),
                1 => call(long, short),
                _ => call(first, long),
            }
        }
    }
}

/// The most bytes of a long block.
const LONGEST: usize = 600;

/// The sizes of the parts by which a block may be compared: as many whole parts of the first size
/// as there are, then of the next size what is left, and so on. The last parts are the odd bytes.
const SIZES: [usize; 4] = [128, 16, 4, 1];

/// The size of the part that a place of a block with so many bytes is in.
pub fn size_of_part(place: usize, length: usize) -> usize {
    let is_in_parts = |size: &usize| place < length / size * size;
    SIZES.into_iter().find(is_in_parts).unwrap_or(1)
}

/// The least and the most bytes of a block in which a place is in a part of one of the sizes, if
/// there is such a block.
fn lengths_with_place(place: usize, size: usize) -> Option<(usize, usize)> {
    let end_of_part = |size| (place / size + 1) * size;
    let larger = SIZES.into_iter().filter(|other| *other > size).min();
    let least = end_of_part(size);
    let most = larger.map_or(LONGEST, |larger| LONGEST.min(end_of_part(larger) - 1));
    (least <= most).then_some((least, most))
}

/// Changes the byte at a place: by one bit, or by any bits.
fn change(random: &mut Random, block: &mut [u8], place: usize) {
    let one_bit = 1 << random.below(8);
    let any_bits = random.byte(1, u8::MAX);
    block[place] ^= random.choose(&[one_bit, any_bits]);
}

/// Two blocks that differ at one place. The sizes of the part that it is in come in turn, as far as
/// it can be in a part of the size.
fn other_at(random: &mut Random, turn: usize, place: usize) -> Frame {
    let mut sizes = (turn..turn + SIZES.len()).map(|turn| SIZES[turn % SIZES.len()]);
    let lengths = sizes.find_map(|size| lengths_with_place(place, size));
    let (least, most) = lengths.expect("a place is in a part of some size");
    let any = random.between(least, most);
    let length = random.choose(&[least, most, any]);
    let first = random.any_bytes(length);
    let mut second = first.clone();
    change(random, &mut second, place);
    call(first, second)
}

/// Every multiple of 4 has its turn, with the place at it or beside it. Of multiples of 16 it is
/// the place at it; the places before these come then, and the last place of all.
fn place_around_a_multiple(turn: usize) -> usize {
    let multiples = LONGEST / 4;
    let multiples_of_16 = LONGEST / 16;
    match turn % (multiples + multiples_of_16 + 1) {
        step if step < multiples && step % 4 == 0 => 4 * step,
        step if step < multiples => 4 * step + step / 4 % 3 - 1,
        step if step < multiples + multiples_of_16 => 16 * (step - multiples + 1) - 1,
        _ => LONGEST - 1,
    }
}

fn other_around_a_multiple(random: &mut Random, turn: usize) -> Frame {
    other_at(random, turn + turn / 4, place_around_a_multiple(turn))
}

/// The places among 16 bytes that the places around multiples leave out come in turn, each with the
/// larger sizes first.
fn other_inside_a_record(random: &mut Random, turn: usize) -> Frame {
    let left_out = [1, 2, 6, 10, 14];
    let (round, step) = (turn / left_out.len(), turn % left_out.len());
    let place = 16 * random.below(LONGEST / 16) + left_out[step];
    other_at(random, round, place)
}

fn other_first_byte(random: &mut Random, turn: usize) -> Frame {
    other_at(random, turn, 0)
}

fn other_last_byte(random: &mut Random, turn: usize) -> Frame {
    let length = whole_parts(random, turn).max(1);
    let first = random.any_bytes(length);
    let mut second = first.clone();
    change(random, &mut second, length - 1);
    call(first, second)
}

/// The length of a block that has whole parts of the size in turn and no others, or is empty.
fn whole_parts(random: &mut Random, turn: usize) -> usize {
    let size = SIZES[turn % SIZES.len()];
    size * random.between(0, LONGEST / size)
}

/// The empty block and the longest come in turn with blocks of whole parts.
fn equal(random: &mut Random, turn: usize) -> Frame {
    let length = match turn % 6 {
        0 => 0,
        1 => LONGEST,
        _ => whole_parts(random, turn),
    };
    let block = random.any_bytes(length);
    call(block.clone(), block)
}

/// Some places differ or, in every other turn, two bytes of equal places in their records are
/// exchanged: the records' sum and their exclusive or stay then.
fn other_in_several_bytes(random: &mut Random, turn: usize) -> Frame {
    let apart = [4, 16, 64, 128][turn / 2 % 4];
    let length = random.between(apart + 1, LONGEST);
    let mut first = random.any_bytes(length);
    let mut second = first.clone();
    if turn.is_multiple_of(2) {
        let place = random.below(length - apart);
        first[place] = first[place + apart] ^ random.byte(1, u8::MAX);
        second[place] = first[place + apart];
        second[place + apart] = first[place];
    } else {
        let places = random.between(2, 9).min(length);
        for place in random.distinct(places, length) {
            change(random, &mut second, place);
        }
    }
    call(first, second)
}

/// A block and its beginning. What is left out is any bytes or zeros, in some turns 256 or 512 of
/// them, which the lengths' low bytes do not show.
fn block_and_beginning(random: &mut Random, turn: usize) -> (Vec<u8>, Vec<u8>) {
    let left_out = [1, 256, 4, 512, 3, 128, 2, 16][turn % 8];
    let length = random.between(0, LONGEST - left_out);
    let beginning = random.any_bytes(length);
    let mut end = random.any_bytes(left_out);
    if random.once_in(2) {
        end.fill(0);
    }
    ([&beginning[..], &end].concat(), beginning)
}

/// The call on two blocks, the shorter one being the first in every other turn.
fn in_both_orders(turn: usize, (long, short): (Vec<u8>, Vec<u8>)) -> Frame {
    match turn % 2 {
        0 => call(short, long),
        _ => call(long, short),
    }
}

fn beginning(random: &mut Random, turn: usize) -> Frame {
    in_both_orders(turn, block_and_beginning(random, turn / 2))
}

/// The beginning differs in one byte, unless it is empty.
fn other_beginning(random: &mut Random, turn: usize) -> Frame {
    let (long, mut short) = block_and_beginning(random, turn / 2);
    if !short.is_empty() {
        let place = random.below(short.len());
        change(random, &mut short, place);
    }
    in_both_orders(turn, (long, short))
}
