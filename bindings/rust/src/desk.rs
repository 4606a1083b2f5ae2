//! The desk, at which edits are made: the primary.

use crate::edit::{Edit, Report};
use crate::format::{LARGEST_IMAGE, MESSAGE_SIZE, WINDOW_MESSAGES, WINDOW_SIZE};
use crate::mark::Mark;
use crate::raw;
use crate::refusal::Refusal;
use crate::replica::{Answer, Replica};
use std::fmt;

/// A drawing's image, the mark of its start, how many edits were applied since, and the window: the last
/// 64 messages.
#[derive(Clone)]
pub struct Desk {
    replica: Replica,
    window: Box<[u8; WINDOW_SIZE]>,
}

/// What an accepted edit gives.
#[derive(Clone, Copy, Debug, PartialEq, Eq)]
pub struct Accepted {
    /// For the wall. It bears the desk's mark.
    pub message: [u8; MESSAGE_SIZE],
    /// What the edit removed.
    pub report: Report,
}

impl Desk {
    /// A desk with count 0 and an empty window, or the refusal of its image. The mark is one that no start
    /// of a desk had before.
    ///
    /// # Panics
    ///
    /// If the library is of another interface or other versions than this crate, as in [`Desk::resume`].
    pub fn start(image: &[u8], mark: Mark) -> Result<Desk, Refusal> {
        Desk::resume(image, mark, 0, &[0; WINDOW_SIZE])
    }

    /// A desk as it was left: its image, mark, count and window.
    ///
    /// It must be its last state, so a host keeps the four before it sends a message. A desk that is resumed
    /// from an earlier one writes a second message with a number that walls may have, and they part from it
    /// unseen; it is to be started with a new mark instead, and its walls with it. Of a window that alone
    /// was lost zeros take the place: walls that are behind are then refused by
    /// [`Refusal::LeftWindow`].
    ///
    /// ```
    /// use mulkefi::{Desk, Drawing, Edit, Kind, Mark, Operation, Refusal, WINDOW_SIZE};
    ///
    /// let mut drawing = Drawing::new();
    /// let (a, b) = (drawing.add_point(0.0, 0.0), drawing.add_point(4.0, 0.0));
    /// let curve = drawing.add_curve(Kind::Line { a, b });
    /// let mut desk = Desk::start(&drawing.to_image(), Mark::from(7))?;
    /// let edit = Edit { operation: Operation::Split, curve, x: 1.0, y: 0.0 };
    /// let message = desk.edit(&edit)?.message;
    ///
    /// let resumed = Desk::resume(desk.image(), desk.mark(), desk.count(), desk.window())?;
    /// assert_eq!(resumed.catch_up(0)?, [message]);
    ///
    /// let without = Desk::resume(desk.image(), desk.mark(), desk.count(), &[0; WINDOW_SIZE])?;
    /// assert_eq!(without.catch_up(0), Err(Refusal::LeftWindow));
    ///
    /// let mut last = Desk::resume(desk.image(), desk.mark(), u32::MAX, desk.window())?;
    /// assert_eq!(last.edit(&edit), Err(Refusal::Numbers));
    /// # Ok::<(), Refusal>(())
    /// ```
    ///
    /// # Panics
    ///
    /// If the library is of another interface or other versions than this crate.
    pub fn resume(
        image: &[u8],
        mark: Mark,
        count: u32,
        window: &[u8; WINDOW_SIZE],
    ) -> Result<Desk, Refusal> {
        let replica = Replica::new(image, mark, count)?;
        Ok(Desk { replica, window: Box::new(*window) })
    }

    /// The image of the drawing as it is now.
    pub fn image(&self) -> &[u8] {
        self.replica.image()
    }

    /// The mark that its messages bear.
    pub fn mark(&self) -> Mark {
        self.replica.mark
    }

    /// How many edits were applied since the start: the number of its last message.
    pub fn count(&self) -> u32 {
        self.replica.count
    }

    /// The last 64 messages, for a host that keeps the desk: message `n` begins at byte
    /// `MESSAGE_SIZE * (n % WINDOW_MESSAGES)`, and where none was written yet are zeros.
    ///
    /// ```
    /// use mulkefi::{Desk, Drawing, Edit, Kind, Mark, Operation, MESSAGE_SIZE, WINDOW_SIZE};
    ///
    /// let mut drawing = Drawing::new();
    /// let (a, b) = (drawing.add_point(0.0, 0.0), drawing.add_point(4.0, 0.0));
    /// let curve = drawing.add_curve(Kind::Line { a, b });
    /// let mut desk = Desk::start(&drawing.to_image(), Mark::from(7))?;
    /// assert_eq!(desk.window(), &[0; WINDOW_SIZE]);
    ///
    /// let edit = Edit { operation: Operation::Split, curve, x: 1.0, y: 0.0 };
    /// let message = desk.edit(&edit)?.message;
    /// assert_eq!(desk.window()[MESSAGE_SIZE..][..MESSAGE_SIZE], message);
    /// # Ok::<(), mulkefi::Refusal>(())
    /// ```
    pub fn window(&self) -> &[u8; WINDOW_SIZE] {
        &self.window
    }

    /// Applies an edit. A refusal leaves the desk as it was; where a relation is the reason,
    /// [`Refusal::relation`] finds it in the desk's drawing.
    ///
    /// ```
    /// use mulkefi::{Desk, Drawing, Edit, Kind, Mark, Operation, Refusal};
    ///
    /// let mut drawing = Drawing::new();
    /// let (a, b) = (drawing.add_point(0.0, 0.0), drawing.add_point(4.0, 0.0));
    /// let curve = drawing.add_curve(Kind::Line { a, b });
    /// let mut desk = Desk::start(&drawing.to_image(), Mark::from(7))?;
    ///
    /// let extend = Edit { operation: Operation::Extend, curve, x: 4.0, y: 0.0 };
    /// assert_eq!(desk.edit(&extend), Err(Refusal::NothingMet));
    ///
    /// let trim = Edit { operation: Operation::Trim, ..extend };
    /// let report = desk.edit(&trim)?.report;
    /// assert_eq!((report.removed, report.start, report.end), (curve, a, b));
    /// assert_eq!(desk.count(), 1);
    /// # Ok::<(), Refusal>(())
    /// ```
    pub fn edit(&mut self, edit: &Edit) -> Result<Accepted, Refusal> {
        let Edit { operation, curve, x, y } = *edit;
        let Replica { buffer, len, mark, count } = &mut self.replica;
        assert!(*len <= LARGEST_IMAGE, "an image keeps within its buffer");
        let mut message = [0; MESSAGE_SIZE];
        let mut answer: Answer = [0; 5];
        // SAFETY: the four buffers are apart, lent for the call with their own lengths, and the engine
        // stays within these; `window` has the bytes of a window, and `answer` the five numbers that it
        // writes.
        let refused = unsafe {
            raw::mulkefi_desk_edit(
                buffer.as_mut_ptr(),
                buffer.len(),
                *len,
                *count,
                (*mark).into(),
                operation.code().into(),
                curve,
                x,
                y,
                message.as_mut_ptr(),
                message.len(),
                self.window.as_mut_ptr(),
                answer.as_mut_ptr(),
            )
        };
        Refusal::of_answer(refused)?;
        Ok(Accepted { message, report: self.replica.take(answer) })
    }

    /// The messages that are due to a wall with this count: all later ones, in order. A wall that gets them
    /// has the desk's image and count.
    ///
    /// ```
    /// use mulkefi::{Desk, Drawing, Edit, Kind, Mark, Operation, Refusal, Wall};
    ///
    /// let mut drawing = Drawing::new();
    /// let (a, b) = (drawing.add_point(0.0, 0.0), drawing.add_point(4.0, 0.0));
    /// let curve = drawing.add_curve(Kind::Line { a, b });
    /// let image = drawing.to_image();
    /// let mut desk = Desk::start(&image, Mark::from(7))?;
    /// let mut wall = Wall::start(&image, desk.mark())?;
    ///
    /// // Three messages are lost, and the wall tells its count.
    /// for x in [3.0, 2.0, 1.0] {
    ///     desk.edit(&Edit { operation: Operation::Split, curve, x, y: 0.0 })?;
    /// }
    /// for message in desk.catch_up(wall.count())? {
    ///     wall.deliver(&message)?;
    /// }
    /// assert_eq!((wall.image(), wall.count()), (desk.image(), desk.count()));
    /// assert_eq!(desk.catch_up(wall.count())?.len(), 0);
    ///
    /// // A count that is above the desk's: the desk was set back.
    /// assert_eq!(desk.catch_up(4), Err(Refusal::CountAbove));
    /// # Ok::<(), Refusal>(())
    /// ```
    ///
    /// Of a wall that is more than 64 messages back, [`Refusal::LeftWindow`] says that it is to be
    /// [started again](crate::Wall::start_at).
    pub fn catch_up(&self, wall_count: u32) -> Result<Vec<[u8; MESSAGE_SIZE]>, Refusal> {
        let Replica { mark, count, .. } = &self.replica;
        let mut messages = [[0; MESSAGE_SIZE]; WINDOW_MESSAGES];
        let lent = messages.as_flattened_mut();
        // SAFETY: the two buffers are apart, lent for the call with their own lengths, and the engine
        // stays within these; the window, which has the bytes of one, is only read.
        let refused = unsafe {
            raw::mulkefi_catch_up(
                self.window.as_ptr(),
                *count,
                (*mark).into(),
                wall_count,
                lent.as_mut_ptr(),
                lent.len(),
            )
        };
        Refusal::of_answer(refused)?;
        let due = count.checked_sub(wall_count).map(|due| due as usize);
        let due = due.filter(|due| *due <= WINDOW_MESSAGES);
        Ok(messages[..due.expect("no more is due than a window holds")].to_vec())
    }

    /// How many of its last messages the window holds without a gap.
    fn last_messages(&self) -> u32 {
        let most = self.count().min(WINDOW_MESSAGES as u32);
        let is_held = |due: &u32| self.catch_up(self.count() - due).is_ok();
        (0..=most).rev().find(is_held).unwrap_or(0)
    }
}

impl fmt::Debug for Desk {
    fn fmt(&self, f: &mut fmt::Formatter<'_>) -> fmt::Result {
        let Replica { len, mark, count, .. } = &self.replica;
        let held = self.last_messages();
        write!(
            f,
            "Desk {{ image: {len} bytes, mark: {mark}, count: {count}, window: {held} held }}"
        )
    }
}

#[cfg(test)]
mod tests {
    use super::*;
    use crate::{Drawing, Kind, Operation};

    /// A desk that has split a line so many times.
    fn desk(splits: u32) -> Desk {
        let mut drawing = Drawing::new();
        let (a, b) = (drawing.add_point(0.0, 0.0), drawing.add_point(100.0, 0.0));
        let curve = drawing.add_curve(Kind::Line { a, b });
        let mut desk = Desk::start(&drawing.to_image(), Mark::from(7)).expect("a good image");
        for split in 1..=splits {
            let x = 100.0 - f64::from(split);
            let edit = Edit { operation: Operation::Split, curve, x, y: 0.0 };
            desk.edit(&edit).expect("the split is accepted");
        }
        desk
    }

    #[test]
    fn the_last_messages_are_held() {
        for (splits, last) in [(0, 0), (1, 1), (63, 63), (64, 64), (65, 64), (90, 64)] {
            let desk = desk(splits);
            assert_eq!(desk.last_messages(), last);
            let held = (0..=splits).filter(|count| desk.catch_up(*count).is_ok()).count();
            assert_eq!(held as u32, last + 1);
        }
    }

    #[test]
    fn a_copy_goes_its_own_way() {
        let desk = desk(2);
        let mut copy = desk.clone();
        copy.edit(&Edit { operation: Operation::Split, curve: 3, x: 1.0, y: 0.0 })
            .expect("the split is accepted");
        assert_eq!((desk.count(), desk.last_messages()), (2, 2));
        assert_eq!((copy.count(), copy.last_messages()), (3, 3));
        assert_eq!(copy.catch_up(0).expect("all is held")[..2], desk.catch_up(0).expect("so here"));
    }

    #[test]
    fn debug_tells_what_the_window_holds() {
        let text = format!("{:?}", desk(2));
        assert!(text.ends_with("count: 2, window: 2 held }"), "{text}");
    }
}
