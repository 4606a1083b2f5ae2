//! The wall, which applies a desk's messages in the order of their numbers: the replica.

use crate::edit::Report;
use crate::format::LARGEST_IMAGE;
use crate::lend;
use crate::mark::Mark;
use crate::raw;
use crate::refusal::Refusal;
use crate::replica::{Answer, Replica};
use std::fmt;

/// A drawing's image, the mark of its desk, and how many edits its desk had applied when it showed this.
#[derive(Clone)]
pub struct Wall(Replica);

/// What an accepted delivery did.
#[derive(Clone, Copy, Debug, PartialEq, Eq)]
pub enum Delivery {
    /// The message's edit was applied before; nothing changed.
    Old,
    /// The message's edit was applied, and removed this.
    Applied(Report),
}

impl Wall {
    /// A wall with count 0, or the refusal of its image. Image and mark are those that its desk started
    /// with.
    ///
    /// # Panics
    ///
    /// If the library is of another interface or other versions than this crate, as in [`Wall::resume`].
    pub fn start(image: &[u8], mark: Mark) -> Result<Wall, Refusal> {
        Wall::start_at(image, mark, 0)
    }

    /// A wall that is started, or started again, from its desk's present image and count, or the refusal of
    /// the image. Mark, image and count are the desk's at one moment.
    ///
    /// Messages up to that count are old to it. Its reports, chains and rings count from this start.
    ///
    /// ```
    /// use mulkefi::{Delivery, Desk, Drawing, Edit, Kind, Mark, Operation, Refusal, Wall};
    ///
    /// let mut drawing = Drawing::new();
    /// let (a, b) = (drawing.add_point(0.0, 0.0), drawing.add_point(100.0, 0.0));
    /// let curve = drawing.add_curve(Kind::Line { a, b });
    /// let image = drawing.to_image();
    /// let mut desk = Desk::start(&image, Mark::from(7))?;
    /// let mut wall = Wall::start(&image, desk.mark())?;
    /// let mut split = |x| desk.edit(&Edit { operation: Operation::Split, curve, x, y: 0.0 });
    ///
    /// // While the wall is behind a closed door, 65 edits are made.
    /// for x in 1..=65 {
    ///     split(100.0 - f64::from(x))?;
    /// }
    /// let last = split(1.0)?;
    /// assert_eq!(desk.catch_up(wall.count()), Err(Refusal::LeftWindow));
    ///
    /// wall = Wall::start_at(desk.image(), desk.mark(), desk.count())?;
    /// assert_eq!((wall.image(), wall.count()), (desk.image(), 66));
    /// assert_eq!(wall.deliver(&last.message)?, Delivery::Old);
    /// # Ok::<(), Refusal>(())
    /// ```
    ///
    /// # Panics
    ///
    /// If the library is of another interface or other versions than this crate, as in [`Wall::resume`].
    pub fn start_at(image: &[u8], mark: Mark, count: u32) -> Result<Wall, Refusal> {
        Replica::new(image, mark, count).map(Wall)
    }

    /// A wall as it was left: its image, mark and count.
    ///
    /// # Panics
    ///
    /// If the library is of another interface or other versions than this crate.
    pub fn resume(image: &[u8], mark: Mark, count: u32) -> Result<Wall, Refusal> {
        Replica::new(image, mark, count).map(Wall)
    }

    /// The image of the drawing as it is now.
    pub fn image(&self) -> &[u8] {
        self.0.image()
    }

    /// The mark that its desk's messages bear.
    pub fn mark(&self) -> Mark {
        self.0.mark
    }

    /// The number of the last edit that its image has. The wall waits for the message with the number
    /// after it; where that does not come, [`Desk::catch_up`](crate::Desk::catch_up) has it.
    pub fn count(&self) -> u32 {
        self.0.count
    }

    /// Takes a message, from whatever desk it comes. A refusal leaves the wall as it was.
    ///
    /// ```
    /// use mulkefi::{Drawing, Mark, Refusal, Wall};
    ///
    /// let mut wall = Wall::start(&Drawing::new().to_image(), Mark::from(7))?;
    /// assert_eq!(wall.deliver(&[]), Err(Refusal::Length));
    /// assert_eq!(wall.deliver(&[0; 38]), Err(Refusal::Version));
    ///
    /// // Number 2 while number 1 has not come.
    /// let mut message = [0; 38];
    /// message[..5].copy_from_slice(&[0, 0, 0, 34, 2]);
    /// message[5..18].copy_from_slice(&[0, 0, 0, 0, 0, 0, 0, 7, 0, 0, 0, 2, 1]);
    /// assert_eq!(wall.deliver(&message), Err(Refusal::Ahead));
    /// # Ok::<(), Refusal>(())
    /// ```
    ///
    /// A neighbour's message changes nothing, not even one with the number that the wall waits for:
    ///
    /// ```
    /// use mulkefi::{Delivery, Desk, Drawing, Edit, Kind, Mark, Operation, Refusal, Wall};
    ///
    /// let mut drawing = Drawing::new();
    /// let (a, b) = (drawing.add_point(0.0, 0.0), drawing.add_point(4.0, 0.0));
    /// let curve = drawing.add_curve(Kind::Line { a, b });
    /// let image = drawing.to_image();
    /// let mut desk = Desk::start(&image, Mark::from(1))?;
    /// let mut neighbour = Desk::start(&image, Mark::from(2))?;
    /// let mut wall = Wall::start(&image, desk.mark())?;
    ///
    /// let split = Edit { operation: Operation::Split, curve, x: 1.0, y: 0.0 };
    /// let foreign = neighbour.edit(&split)?.message;
    /// assert_eq!(wall.deliver(&foreign), Err(Refusal::Foreign));
    /// assert_eq!((wall.image(), wall.count()), (&image[..], 0));
    ///
    /// let own = desk.edit(&split)?;
    /// assert_eq!(wall.deliver(&own.message)?, Delivery::Applied(own.report));
    /// assert_eq!(wall.deliver(&foreign), Err(Refusal::Foreign));
    /// # Ok::<(), Refusal>(())
    /// ```
    pub fn deliver(&mut self, message: &[u8]) -> Result<Delivery, Refusal> {
        let Replica { buffer, len, mark, count } = &mut self.0;
        assert!(*len <= LARGEST_IMAGE, "an image keeps within its buffer");
        let (bytes, size) = lend::bytes(message);
        let before = *count;
        let mut answer: Answer = [0; 5];
        // SAFETY: the buffer, the message and the answer are apart, lent for the call with their own
        // lengths, and the engine stays within these; `answer` has the five numbers that it writes.
        let refused = unsafe {
            raw::mulkefi_wall_deliver(
                buffer.as_mut_ptr(),
                buffer.len(),
                *len,
                *count,
                (*mark).into(),
                bytes,
                size,
                answer.as_mut_ptr(),
            )
        };
        Refusal::of_answer(refused)?;
        let report = self.0.take(answer);
        Ok(if self.0.count == before { Delivery::Old } else { Delivery::Applied(report) })
    }
}

impl fmt::Debug for Wall {
    fn fmt(&self, f: &mut fmt::Formatter<'_>) -> fmt::Result {
        let Replica { len, mark, count, .. } = &self.0;
        write!(f, "Wall {{ image: {len} bytes, mark: {mark}, count: {count} }}")
    }
}
