//! `mulkefi_desk_edit`.

use crate::answers::{edit_number, words, ANSWER_BEFORE, MESSAGE_SIZE};
use crate::buffers::Buffers;
use crate::calls::Calls;
use crate::guard::Guarded;
use crate::inputs;
use mulkefi::{Delivery, Wall};
use oracle::generate::marks;
use oracle::generate::random::Random;
use oracle::message::Mark;
use window_cases::plain::{self, Window};
use window_cases::WindowState;

/// The bytes lent for a message: mostly just enough.
const ROOMS: [usize; 9] = [
    MESSAGE_SIZE,
    MESSAGE_SIZE,
    MESSAGE_SIZE,
    MESSAGE_SIZE,
    MESSAGE_SIZE + 1,
    64,
    MESSAGE_SIZE - 1,
    1,
    0,
];

pub struct Subject {
    buffers: Buffers,
    window: Guarded,
}

impl Subject {
    pub fn new() -> Subject {
        Subject { buffers: Buffers::new(), window: Guarded::new(plain::SIZE) }
    }

    /// Answers the number of the outcome.
    pub fn try_one(&mut self, calls: &Calls, random: &mut Random) -> Result<u32, String> {
        let call = inputs::call(random);
        let held = inputs::buffer(random, &call.image);
        let len = inputs::claimed(random, call.image.len(), held.len());
        let (mark, count) = (marks::mark(random), inputs::count(random));
        let lent = vec![0x77; random.pick(&ROOMS)];
        let kept = random.pick(&WindowState::ALL).window(random, count, mark, count);
        let Buffers { buffer, message, answer } = &mut self.buffers;
        let buffer = buffer.lend(&held, inputs::edge(random));
        let message = message.lend(&lent, inputs::edge(random));
        let answer = answer.lend(&ANSWER_BEFORE, inputs::edge(random)).cast();
        let window = self.window.lend(&kept[..], inputs::edge(random));
        let (operation, curve, x, y) = (call.operation, call.curve, call.x, call.y);
        // SAFETY: four buffers apart, with their own lengths; the window has the bytes of one, the answer
        // five numbers.
        let answered = unsafe {
            (calls.desk_edit)(
                buffer,
                held.len(),
                len,
                count,
                mark,
                operation,
                curve,
                x,
                y,
                message,
                lent.len(),
                window,
                answer,
            )
        };
        let image = &held[..len.min(held.len())];
        let outcome = edit_number(answered, image)?;
        match outcome {
            0 => self.accepted(image, mark, count, &kept).map(|()| 0),
            _ => self.untouched().map(|()| outcome),
        }
    }

    fn untouched(&self) -> Result<(), String> {
        let Buffers { buffer, message, answer } = &self.buffers;
        buffer.check("the buffer, on refusal", 0)?;
        message.check("the message, on refusal", 0)?;
        self.window.check("the window, on refusal", 0)?;
        answer.check("the answer, on refusal", 0)
    }

    /// The image, the message, its slot of the window and five numbers are written; a wall with the same
    /// mark that gets the message has the same image.
    fn accepted(
        &self,
        image: &[u8],
        mark: Mark,
        count: u32,
        window: &Window,
    ) -> Result<(), String> {
        let Buffers { buffer, message, answer } = &self.buffers;
        answer.check("the answer", ANSWER_BEFORE.len())?;
        let words = words(answer.bytes());
        let len = words[1] as usize;
        buffer.check("the buffer", len)?;
        message.check("the message", MESSAGE_SIZE)?;
        if count.checked_add(1) != Some(words[0]) {
            return Err(format!("count {count} became {}", words[0]));
        }
        let message = &message.bytes()[..MESSAGE_SIZE];
        self.window.check("the window", plain::SIZE)?;
        let mut expected = *window;
        plain::slide(&mut expected, words[0], message);
        if let Some(at) = (0..plain::SIZE).find(|at| self.window.bytes()[*at] != expected[*at]) {
            return Err(format!("byte {at} of the window is wrong after edit {}", words[0]));
        }
        let after = &buffer.bytes()[..len];
        let wrong = |refusal| format!("at a wall: {refusal}");
        let mut wall = Wall::resume(image, mark.into(), count).map_err(wrong)?;
        let delivery = wall.deliver(message).map_err(wrong)?;
        let same = matches!(delivery, Delivery::Applied(_)) && wall.image() == after;
        if same {
            Ok(())
        } else {
            Err("a wall shows another image".into())
        }
    }
}
