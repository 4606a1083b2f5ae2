//! The window in plain words: a desk keeps its last 64 messages, and a wall is sent
//! every one after its count.

use crate::message;
use crate::refusal::Refusal;
use crate::window::MESSAGES;
use std::collections::VecDeque;

/// The desk's last messages as a list.
#[derive(Clone, Debug)]
pub struct KeptMessages {
    /// The desk's count, which is the number of the last message.
    count: u32,
    /// In the order in which they were written.
    messages: VecDeque<[u8; message::SIZE]>,
}

impl KeptMessages {
    /// A desk at a count keeps no message of before.
    pub fn none(count: u32) -> KeptMessages {
        KeptMessages { count, messages: VecDeque::new() }
    }

    /// The window slides by one with each accepted edit.
    pub fn slide(&mut self, message: &[u8; message::SIZE]) {
        self.count += 1;
        self.messages.push_back(*message);
        if self.messages.len() > MESSAGES {
            self.messages.pop_front();
        }
    }

    /// Writes every message after a wall's count in order to the front of a buffer with room for them.
    /// Answers how many they are.
    pub fn catch_up(&self, wall_count: u32, out: &mut [u8]) -> Result<usize, Refusal> {
        let due = self.count.checked_sub(wall_count).ok_or(Refusal::CountAbove)? as usize;
        let first = self.messages.len().checked_sub(due).ok_or(Refusal::LeftWindow)?;
        let later: Vec<u8> = self.messages.range(first..).flatten().copied().collect();
        let front = out.get_mut(..later.len()).ok_or(Refusal::Buffer)?;
        front.copy_from_slice(&later);
        Ok(due)
    }
}
