//! `mulkefi_wall_deliver`.

use crate::answers::{delivery_number, words, ANSWER_BEFORE};
use crate::buffers::Buffers;
use crate::calls::Calls;
use crate::inputs;
use crate::tally::OLD;
use oracle::generate::marks;
use oracle::generate::random::Random;

pub struct Subject(Buffers);

impl Subject {
    pub fn new() -> Subject {
        Subject(Buffers::new())
    }

    /// Answers the number of the outcome.
    pub fn try_one(&mut self, calls: &Calls, random: &mut Random) -> Result<u32, String> {
        let call = inputs::call(random);
        let held = inputs::buffer(random, &call.image);
        let len = inputs::claimed(random, call.image.len(), held.len());
        let (mark, count) = (marks::mark(random), inputs::count(random));
        let sent = inputs::message(random, &call, mark, count);
        let buffer = self.0.buffer.lend(&held, inputs::edge(random));
        let message = self.0.message.lend_to_read(&sent, inputs::edge(random));
        let answer = self.0.answer.lend(&ANSWER_BEFORE, inputs::edge(random)).cast();
        // SAFETY: three buffers apart, with their own lengths; the answer has five numbers.
        let answered = unsafe {
            (calls.wall_deliver)(buffer, held.len(), len, count, mark, message, sent.len(), answer)
        };
        let image = &held[..len.min(held.len())];
        let outcome = delivery_number(answered, image, mark, &sent)?;
        match outcome {
            0 => self.accepted(image.len(), count),
            _ => {
                self.0.buffer.check("the buffer, on refusal", 0)?;
                self.0.answer.check("the answer, on refusal", 0)?;
                Ok(outcome)
            }
        }
    }

    /// The image and five numbers are written; of an old message the numbers alone.
    fn accepted(&self, len_before: usize, count: u32) -> Result<u32, String> {
        self.0.answer.check("the answer", ANSWER_BEFORE.len())?;
        let words = words(self.0.answer.bytes());
        let len = words[1] as usize;
        if words[0] == count {
            self.0.buffer.check("the buffer, at an old message", 0)?;
            let same = words[1..] == [len_before as u32, 0, 0, 0];
            return if same { Ok(OLD) } else { Err(format!("old, with {words:?}")) };
        }
        self.0.buffer.check("the buffer", len)?;
        if count.checked_add(1) != Some(words[0]) {
            return Err(format!("count {count} became {}", words[0]));
        }
        mulkefi::test(&self.0.buffer.bytes()[..len])
            .map_err(|refusal| format!("leaves {refusal}"))?;
        Ok(0)
    }
}
