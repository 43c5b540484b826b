//! The frames of a file of cases. An input frame is one call with all it lends, an output frame is
//! all that the call answers and leaves behind. Both have one form, which says its own length, so
//! that a file is read frame by frame without knowing the entries.

use std::fmt;
use std::num::TryFromIntError;

use crate::jobs::two_byte_number;

/// One frame.
#[derive(Clone, Debug, PartialEq, Eq)]
pub struct Frame {
    /// In an input frame the entry's number, in an output frame the refusal's, 0 for none.
    pub head: u8,
    pub numbers: Vec<u16>,
    pub blocks: Vec<Vec<u8>>,
}

/// Why bytes are no frame.
#[derive(Clone, Copy, Debug, PartialEq, Eq)]
pub enum Damage {
    /// The bytes end before the end that the frame's length gives.
    EndsEarly,
    /// The numbers and blocks that the frame tells of end after it.
    PartsTooLong,
    /// The numbers and blocks that the frame tells of end before it.
    BytesLeftOver,
}

impl fmt::Display for Damage {
    fn fmt(&self, formatter: &mut fmt::Formatter<'_>) -> fmt::Result {
        formatter.write_str(match self {
            Damage::EndsEarly => "ends early",
            Damage::PartsTooLong => "has parts that do not fit in its length",
            Damage::BytesLeftOver => "has bytes left over after its parts",
        })
    }
}

/// Bytes of which the parts of a frame are taken from the start on; none where they are too few.
struct Rest<'a>(&'a [u8]);

impl<'a> Rest<'a> {
    fn bytes(&mut self, count: usize) -> Option<&'a [u8]> {
        let (taken, rest) = self.0.split_at_checked(count)?;
        self.0 = rest;
        Some(taken)
    }

    fn byte(&mut self) -> Option<u8> {
        Some(self.bytes(1)?[0])
    }

    fn number(&mut self) -> Option<u16> {
        let pair = self.bytes(2)?;
        Some(two_byte_number(pair[0], pair[1]))
    }

    /// Bytes with their length before them.
    fn block(&mut self) -> Option<&'a [u8]> {
        let length = self.number()?;
        self.bytes(usize::from(length))
    }

    fn frame(&mut self) -> Option<Frame> {
        let head = self.byte()?;
        let count = self.byte()?;
        let numbers = (0..count).map(|_| self.number()).collect::<Option<_>>()?;
        let count = self.byte()?;
        let blocks = (0..count).map(|_| self.block().map(<[u8]>::to_vec));
        let blocks = blocks.collect::<Option<_>>()?;
        Some(Frame {
            head,
            numbers,
            blocks,
        })
    }
}

/// Appends bytes with their length before them.
fn put_block(bytes: &mut Vec<u8>, block: &[u8]) -> Result<(), TryFromIntError> {
    bytes.extend(u16::try_from(block.len())?.to_be_bytes());
    bytes.extend(block);
    Ok(())
}

impl Frame {
    /// The bytes of this frame; an error if a count does not fit in one byte or a length in two.
    pub fn to_bytes(&self) -> Result<Vec<u8>, TryFromIntError> {
        let mut parts = vec![self.head, u8::try_from(self.numbers.len())?];
        parts.extend(self.numbers.iter().flat_map(|number| number.to_be_bytes()));
        parts.push(u8::try_from(self.blocks.len())?);
        for block in &self.blocks {
            put_block(&mut parts, block)?;
        }
        let mut bytes = Vec::new();
        put_block(&mut bytes, &parts)?;
        Ok(bytes)
    }

    /// The frame that some bytes begin with, and the bytes after it.
    pub fn first_of(bytes: &[u8]) -> Result<(Frame, &[u8]), Damage> {
        let mut file = Rest(bytes);
        let mut parts = Rest(file.block().ok_or(Damage::EndsEarly)?);
        let frame = parts.frame().ok_or(Damage::PartsTooLong)?;
        match parts.0 {
            [] => Ok((frame, file.0)),
            _ => Err(Damage::BytesLeftOver),
        }
    }

    /// The numbers and the blocks, if there are so many of them and each number fits its type.
    pub fn parts<N: TryFrom<u16>, const NUMBERS: usize, const BLOCKS: usize>(
        &self,
    ) -> Option<([N; NUMBERS], [&[u8]; BLOCKS])> {
        let numbers = self.numbers.iter().map(|number| N::try_from(*number).ok());
        let numbers: Vec<N> = numbers.collect::<Option<_>>()?;
        let blocks: Vec<&[u8]> = self.blocks.iter().map(Vec::as_slice).collect();
        Some((numbers.try_into().ok()?, blocks.try_into().ok()?))
    }
}

/// The frames of a file, or the number of the first one that is damaged, with its damage.
pub fn frames_of_file(mut bytes: &[u8]) -> Result<Vec<Frame>, (usize, Damage)> {
    let mut frames = Vec::new();
    while !bytes.is_empty() {
        let (frame, rest) = Frame::first_of(bytes).map_err(|damage| (frames.len(), damage))?;
        frames.push(frame);
        bytes = rest;
    }
    Ok(frames)
}

/// What the first difference between a file and the frames that it is to hold is, if there is one.
/// A frame's number is its place in the file, from 0 on.
pub fn first_difference(mut found: &[u8], expected: &[Vec<u8>]) -> Option<String> {
    for (number, frame) in expected.iter().enumerate() {
        if let Some(rest) = found.strip_prefix(frame.as_slice()) {
            found = rest;
        } else if found.is_empty() {
            return Some(format!("frame {number} is missing"));
        } else if let Err(damage) = Frame::first_of(found) {
            return Some(format!("frame {number} {damage}"));
        } else {
            return Some(format!("frame {number} differs"));
        }
    }
    let (frames, left) = (expected.len(), found.len());
    (left > 0).then(|| format!("{left} bytes follow the {frames} frames expected"))
}
