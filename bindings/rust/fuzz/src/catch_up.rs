//! `mulkefi_catch_up`.

use crate::calls::Calls;
use crate::guard::Guarded;
use crate::inputs;
use oracle::generate::random::Random;
use window_cases::{plain, Case};

pub struct Subject {
    window: Guarded,
    messages: Guarded,
}

impl Subject {
    pub fn new() -> Subject {
        let [window, messages] = [plain::SIZE, Case::MOST_ROOM].map(Guarded::new);
        Subject { window, messages }
    }

    /// Answers the number of the outcome. The plain reading of the window must give the same, and the same
    /// bytes.
    pub fn try_one(&mut self, calls: &Calls, random: &mut Random) -> Result<u32, String> {
        let case = Case::any(random);
        let before: Vec<u8> = (0..case.room).map(|at| (at % 251) as u8).collect();
        let window = self.window.lend_to_read(&case.window[..], inputs::edge(random));
        let messages = self.messages.lend(&before, inputs::edge(random));
        let Case { count, mark, wall_count, room, .. } = case;
        // SAFETY: two buffers apart, with their own lengths; the window has the bytes of one.
        let answered = unsafe { (calls.catch_up)(window, count, mark, wall_count, messages, room) };
        let (expected, after) = case.expected(&before);
        let counts = || format!("a desk at {count} and a wall at {wall_count}");
        if answered != expected {
            let says = format!("the engine says {answered}, the plain reading {expected}");
            return Err(format!("{says}: {}, room {room}", counts()));
        }
        self.window.check("the window", 0)?;
        let written = if expected == 0 { plain::written(count, wall_count) } else { 0 };
        self.messages.check("the messages", written)?;
        match (0..room).find(|at| self.messages.bytes()[*at] != after[*at]) {
            None => Ok(answered),
            Some(at) => Err(format!("byte {at} of the messages is wrong: {}", counts())),
        }
    }
}
