//! Reading bytes and writing them back: what images and messages have in common.

use crate::hex::Hex;
use oracle::generate::random::Random;
use oracle::refusal::Refusal;
use std::fmt;

/// Bytes to read and the room for writing them back.
#[derive(Debug)]
pub struct Case {
    pub bytes: Hex,
    pub room: usize,
}

/// The number answered, and the whole buffer afterwards.
#[derive(PartialEq)]
pub struct Answer {
    number: u32,
    out: Hex,
}

impl fmt::Debug for Answer {
    fn fmt(&self, f: &mut fmt::Formatter<'_>) -> fmt::Result {
        write!(f, "{}, ", self.number)?;
        if self.out.0 == lent_buffer(self.out.0.len()) {
            return write!(f, "buffer untouched");
        }
        write!(f, "buffer {:?}", self.out)
    }
}

impl Case {
    pub fn new(bytes: Vec<u8>, random: &mut Random) -> Case {
        let size = bytes.len();
        let more = size + 1 + random.below(40);
        let room = random.weighted(&[(5, size), (2, more), (2, size.saturating_sub(1)), (1, 0)]);
        Case { bytes: Hex(bytes), room }
    }

    /// Keeps the buffer as much longer or shorter than the bytes as it was.
    pub fn with_bytes(&self, bytes: &[u8]) -> Case {
        let room = (self.room + bytes.len()).saturating_sub(self.bytes.0.len());
        Case { bytes: Hex(bytes.to_vec()), room }
    }
}

/// What a buffer holds before a call: any byte that the call leaves must still be there.
fn lent_buffer(room: usize) -> Vec<u8> {
    (0..room).map(|at| (at as u8).wrapping_mul(37) ^ 0xa5).collect()
}

pub fn oracle_answer(
    case: &Case,
    copy: impl FnOnce(&[u8], &mut [u8]) -> Result<usize, Refusal>,
) -> Answer {
    let mut out = lent_buffer(case.room);
    let number = match copy(&case.bytes.0, &mut out) {
        Ok(_) => 0,
        Err(refusal) => u32::from(refusal.number()),
    };
    Answer { number, out: Hex(out) }
}

pub fn engine_answer(case: &Case, copy: impl FnOnce(&[u8], &mut [u8]) -> u32) -> Answer {
    let mut out = lent_buffer(case.room);
    let number = copy(&case.bytes.0, &mut out);
    Answer { number, out: Hex(out) }
}

impl Answer {
    pub fn number(&self) -> u8 {
        self.number as u8
    }
}
