//! The desk's window: its last messages, byte for byte as written, from which a wall that fell behind
//! is sent what it lacks.
//!
//! The message with number n stands in slot n % 64. Nothing stands beside the slots: any bytes are a
//! window, since a slot tells by itself whether it holds a message, and which. `KeptMessages` has the
//! same in plain words.

use crate::bytes::put;
use crate::message::{self, Mark};
use crate::refusal::Refusal;

/// How many messages a window has room for, and its size in bytes.
pub const MESSAGES: usize = 64;
pub const SIZE: usize = MESSAGES * message::SIZE;

#[derive(Clone, Debug, PartialEq, Eq)]
pub struct Window {
    pub bytes: [u8; SIZE],
}

impl Window {
    /// The window of a desk that wrote no message yet.
    pub fn empty() -> Window {
        Window { bytes: [0; SIZE] }
    }

    /// Slides by one: the message takes the slot of the one that has 64 less.
    pub fn slide(&mut self, number: u32, message: &[u8; message::SIZE]) {
        put(&mut self.bytes, slot_at(number), *message);
    }
}

/// Where the message with a number stands.
pub fn slot_at(number: u32) -> usize {
    number as usize % MESSAGES * message::SIZE
}

/// The bytes of a number's slot, unless the window ends before it does.
pub fn slot(window: &[u8], number: u32) -> Option<&[u8]> {
    let at = slot_at(number);
    window.get(at..at + message::SIZE)
}

/// Whether a number's slot holds the message with that number, of the desk with this mark.
pub fn is_held(window: &[u8], mark: Mark, number: u32) -> bool {
    let message = slot(window, number).and_then(|slot| message::read(slot, mark).ok());
    message.is_some_and(|message| message.number == number)
}

/// Writes every message after a wall's count, up to the desk's, in order to the front of a buffer with
/// room for them. Answers how many they are.
pub fn catch_up(
    window: &[u8],
    count: u32,
    mark: Mark,
    wall_count: u32,
    out: &mut [u8],
) -> Result<usize, Refusal> {
    if wall_count > count {
        return Err(Refusal::CountAbove);
    }
    let due = (count - wall_count) as usize;
    // A wall at the last number has none after it.
    let numbers = (wall_count..count).map(|before| before + 1);
    if due > MESSAGES || !numbers.clone().all(|number| is_held(window, mark, number)) {
        return Err(Refusal::LeftWindow);
    }
    let out = out.get_mut(..due * message::SIZE).ok_or(Refusal::Buffer)?;
    for (place, number) in out.chunks_mut(message::SIZE).zip(numbers) {
        place.copy_from_slice(slot(window, number).expect("a held message stands in its slot"));
    }
    Ok(due)
}
