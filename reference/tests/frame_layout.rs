//! The bytes of a frame and of a file of frames: what is written is read back, and what is damaged
//! is told.

use reference::entries::answer;
use reference::frames::{first_difference, frames_of_file, Damage, Frame};
use reference::generation::input_of_case;
use reference::generation::random::Random;

fn frame(head: u8, numbers: &[u16], blocks: &[&[u8]]) -> Frame {
    Frame {
        head,
        numbers: numbers.to_vec(),
        blocks: blocks.iter().map(|block| block.to_vec()).collect(),
    }
}

fn bytes(frame: &Frame) -> Vec<u8> {
    frame.to_bytes().expect("the frame is short enough")
}

/// Frames of many shapes with their bytes.
fn examples() -> [(Frame, Vec<u8>); 5] {
    [
        (frame(0, &[], &[]), vec![0, 3, 0, 0, 0]),
        (frame(12, &[0x102], &[]), vec![0, 5, 12, 1, 1, 2, 0]),
        (
            frame(8, &[], &[&[], &[9]]),
            vec![0, 8, 8, 0, 2, 0, 0, 0, 1, 9],
        ),
        (
            frame(7, &[3, 65_535], &[&[1, 2, 3]]),
            vec![0, 12, 7, 2, 0, 3, 255, 255, 1, 0, 3, 1, 2, 3],
        ),
        (
            frame(5, &[], &[&[4; 256]]),
            [vec![1, 5, 5, 0, 1, 1, 0], vec![4; 256]].concat(),
        ),
    ]
}

/// A frame with any numbers and blocks.
fn any_frame(random: &mut Random) -> Frame {
    let numbers = random.choose(&[0, 1, 2, 7, 255]);
    let blocks = random.choose(&[0, 1, 2, 5, 255]);
    let longest = random.choose(&[0, 1, 8, 200]);
    Frame {
        head: random.byte(0, u8::MAX),
        numbers: (0..numbers).map(|_| random.ticks(0, u16::MAX)).collect(),
        blocks: (0..blocks)
            .map(|_| {
                let length = random.between(0, longest);
                random.any_bytes(length)
            })
            .collect(),
    }
}

#[test]
fn the_bytes_of_a_frame() {
    for (frame, expected) in examples() {
        assert_eq!(bytes(&frame), expected);
        assert_eq!(Frame::first_of(&expected), Ok((frame, &[][..])));
    }
}

#[test]
fn what_is_written_is_read_back() {
    for case in 0..300 {
        let mut random = Random::of_case(31, case);
        let count = random.between(0, 4);
        let frames: Vec<Frame> = (0..count).map(|_| any_frame(&mut random)).collect();
        let file = frames.iter().map(bytes).collect::<Vec<_>>().concat();
        assert_eq!(frames_of_file(&file), Ok(frames));
    }
}

#[test]
fn a_frame_has_up_to_65_535_bytes_after_its_length() {
    // The entry, both counts and the block's length take 5 of them.
    let longest = frame(8, &[], &[&[7; 65_530]]);
    let written = bytes(&longest);
    assert_eq!(written.len(), 2 + 65_535);
    assert_eq!(Frame::first_of(&written), Ok((longest, &[][..])));
    assert!(frame(8, &[], &[&[7; 65_531]]).to_bytes().is_err());
    assert!(frame(8, &[], &[&[7; 40_000], &[7; 40_000]])
        .to_bytes()
        .is_err());
    assert!(frame(8, &[], &[&[7; 65_536]]).to_bytes().is_err());
    assert!(frame(8, &[0; 255], &[&[][..]; 255]).to_bytes().is_ok());
    assert!(frame(8, &[0; 256], &[]).to_bytes().is_err());
    assert!(frame(8, &[], &[&[][..]; 256]).to_bytes().is_err());
}

#[test]
fn a_frame_that_is_cut_off_ends_early() {
    for (_, bytes) in examples() {
        for end in 0..bytes.len() {
            assert_eq!(Frame::first_of(&bytes[..end]), Err(Damage::EndsEarly));
        }
    }
}

#[test]
fn the_parts_of_a_frame_fill_its_length() {
    for (_, mut bytes) in examples() {
        let length = u16::from_be_bytes([bytes[0], bytes[1]]);
        let mut with_length = |length: u16| {
            bytes[..2].copy_from_slice(&length.to_be_bytes());
            Frame::first_of(&[&bytes[..], &[0]].concat()).map(|_| ())
        };
        for shorter in 0..length {
            assert_eq!(with_length(shorter), Err(Damage::PartsTooLong));
        }
        assert_eq!(with_length(length), Ok(()));
        assert_eq!(with_length(length + 1), Err(Damage::BytesLeftOver));
        assert_eq!(with_length(length + 2), Err(Damage::EndsEarly));
    }
}

#[test]
fn counts_and_lengths_inside_a_frame_are_told_from_its_length() {
    let whole = bytes(&frame(7, &[3, 4], &[&[1, 2, 3]]));
    // The counts of numbers and of blocks, and the block's length.
    for (place, more, fewer) in [
        (3, Damage::PartsTooLong, Damage::BytesLeftOver),
        (8, Damage::PartsTooLong, Damage::BytesLeftOver),
        (10, Damage::PartsTooLong, Damage::BytesLeftOver),
    ] {
        for (changed, damage) in [(whole[place] + 1, more), (0, fewer)] {
            let mut bytes = whole.clone();
            bytes[place] = changed;
            assert_eq!(Frame::first_of(&bytes), Err(damage), "byte {place}");
        }
    }
}

#[test]
fn a_damaged_file_tells_the_number_of_the_frame() {
    let frames = examples().map(|(frame, _)| frame);
    let mut file = frames.iter().map(bytes).collect::<Vec<_>>().concat();
    let whole = file.len();
    file.push(0);
    assert_eq!(frames_of_file(&file), Err((5, Damage::EndsEarly)));
    assert_eq!(
        frames_of_file(&file[..whole - 1]),
        Err((4, Damage::EndsEarly))
    );
    assert_eq!(frames_of_file(&file[..whole]), Ok(frames.to_vec()));
    file[6] += 1;
    assert_eq!(frames_of_file(&file), Err((1, Damage::BytesLeftOver)));
}

#[test]
fn any_bytes_are_frames_or_damaged() {
    let (mut whole, mut damaged) = (0, 0);
    for case in 0..20_000 {
        let mut random = Random::of_case(32, case);
        let mut file = [any_frame(&mut random), any_frame(&mut random)].map(|frame| bytes(&frame));
        let [first, second] = &mut file;
        for _ in 0..random.between(0, 3) {
            let place = random.below(first.len().min(9));
            first[place] = random.choose(&[0, 1, 2, u8::MAX]);
        }
        second.truncate(random.between(0, second.len()));
        let file = file.concat();
        match frames_of_file(&file) {
            Ok(frames) => {
                assert_eq!(frames.iter().map(bytes).collect::<Vec<_>>().concat(), file);
                whole += 1;
            }
            Err((number, damage)) => {
                assert!(number <= file.len(), "{damage}");
                damaged += 1;
            }
        }
    }
    assert!(whole >= 500 && damaged >= 500, "{whole} {damaged}");
}

#[test]
fn the_first_difference_of_a_file_names_its_frame() {
    let expected: Vec<Vec<u8>> = examples().map(|(_, bytes)| bytes).to_vec();
    let file = expected.concat();
    let difference = |file: &[u8]| first_difference(file, &expected);
    let said = |text: &str| Some(text.to_string());
    assert_eq!(difference(&file), None);
    assert_eq!(difference(&[]), said("frame 0 is missing"));
    let start_of_last = file.len() - expected[4].len();
    assert_eq!(
        difference(&file[..start_of_last]),
        said("frame 4 is missing")
    );
    assert_eq!(
        difference(&file[..file.len() - 1]),
        said("frame 4 ends early")
    );
    assert_eq!(
        difference(&[&file[..], &[0, 1]].concat()),
        said("2 bytes follow the 5 frames expected")
    );
    let mut changed = file.clone();
    changed[start_of_last - 1] ^= 1;
    assert_eq!(difference(&changed), said("frame 3 differs"));
    changed[8] += 1;
    assert_eq!(
        difference(&changed),
        said("frame 1 has parts that do not fit in its length")
    );
    changed[8] -= 1;
    changed[6] += 1;
    assert_eq!(
        difference(&changed),
        said("frame 1 has bytes left over after its parts")
    );
}

/// The bytes of a frame as the README writes them.
fn written_out(frame: &Frame) -> String {
    let bytes = bytes(frame).into_iter();
    let bytes: Vec<String> = bytes.map(|byte| format!("{byte:02x}")).collect();
    bytes.join(" ")
}

#[test]
fn the_example_of_the_readme_is_case_762() {
    let input = input_of_case(1, 762);
    let output = answer(&input).expect("a case has an answer");
    let readme = include_str!("../README.md");
    let example = format!("\n{}\n{}\n", written_out(&input), written_out(&output));
    assert!(readme.contains(&example), "{example}");
}
