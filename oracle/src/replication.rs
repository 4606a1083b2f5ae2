//! State machine replication: the desk is the primary, where edits are made; the wall is the replica,
//! which applies the desk's messages in the order of their numbers.

use crate::drawing::Drawing;
use crate::edit::{self, Refused, Report};
use crate::image;
use crate::message::{self, Edit, Mark, Message};
use crate::refusal::Refusal;
use crate::validity;
use crate::window::{self, Window};

/// The state of a wall, and that of a desk but for its window: a drawing, the mark of the desk's start,
/// and how many edits were applied since.
#[derive(Clone, Debug, PartialEq)]
pub struct Replica {
    pub drawing: Drawing,
    pub mark: Mark,
    pub count: u32,
}

/// The state of a desk: its replica, and its last messages.
#[derive(Clone, Debug, PartialEq)]
pub struct Desk {
    pub replica: Replica,
    pub window: Window,
}

/// What a delivery did to a wall.
#[derive(Clone, Copy, Debug, PartialEq, Eq)]
pub enum Delivery {
    /// The message's edit was applied before; nothing changed.
    Old,
    Applied(Report),
}

impl Replica {
    pub fn new(drawing: Drawing, mark: Mark) -> Self {
        Replica { drawing, mark, count: 0 }
    }

    /// A wall that is started, or started again, from its desk's present image and count, unless the
    /// image is refused.
    pub fn start_at(image: &[u8], mark: Mark, count: u32) -> Result<Self, Refusal> {
        Ok(Replica { drawing: image::read(image)?, mark, count })
    }

    /// The wall's call: applies the edit of a message if it is the next one of its desk.
    pub fn deliver(&mut self, bytes: &[u8]) -> Result<Delivery, Refused> {
        validity::check(&self.drawing)?;
        let message = message::read(bytes, self.mark)?;
        if message.number <= self.count {
            return Ok(Delivery::Old);
        }
        if message.number - self.count > 1 {
            return Err(Refusal::Ahead.into());
        }
        let (drawing, report) = edit::apply_tested(&self.drawing, &message.edit)?;
        *self = Replica { drawing, mark: self.mark, count: message.number };
        Ok(Delivery::Applied(report))
    }
}

impl Desk {
    pub fn new(drawing: Drawing, mark: Mark) -> Self {
        Desk { replica: Replica::new(drawing, mark), window: Window::empty() }
    }

    /// Applies an edit, writes its message to the buffer's front and keeps it in the window.
    pub fn edit(&mut self, edit: &Edit, out: &mut [u8]) -> Result<Report, Refused> {
        let Replica { drawing, mark, count } = &mut self.replica;
        validity::check(drawing)?;
        let out = out.first_chunk_mut().ok_or(Refusal::Buffer)?;
        let number = count.checked_add(1).ok_or(Refusal::Numbers)?;
        let (edited, report) = edit::apply_tested(drawing, edit)?;
        (*drawing, *count) = (edited, number);
        *out = message::to_bytes(&Message { number, edit: *edit }, *mark);
        self.window.slide(number, out);
        Ok(report)
    }

    /// Writes every message after a wall's count to the buffer's front. Answers how many they are.
    pub fn catch_up(&self, wall_count: u32, out: &mut [u8]) -> Result<usize, Refusal> {
        let Replica { mark, count, .. } = self.replica;
        window::catch_up(&self.window.bytes, count, mark, wall_count, out)
    }
}
