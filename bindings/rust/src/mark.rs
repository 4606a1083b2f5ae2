//! Marks, by which a wall tells its own desk's messages from all others.

use crate::format::message::MARK_AT;
use crate::format::{LENGTH_SIZE, MESSAGE_SIZE, MESSAGE_VERSION, VERSION_AT};
use crate::record::{field, u32_at};
use std::fmt;

/// The mark of a start: any eight bytes, zeros too. A desk's messages bear its mark, and a wall refuses
/// those that bear another than its own.
///
/// A host gives each start of a desk a mark that no start of a desk had before, since messages of the
/// earlier start would be read as this one's, and gives a wall the mark of its desk. Each side keeps the
/// mark beside image and count, and resumes with it.
///
/// Eight random bytes from the system are a mark, or a counter of starts that is kept on disk, with the
/// desk's own number in the upper half:
///
/// ```
/// use mulkefi::Mark;
///
/// let (desk, start): (u32, u32) = (3, 41);
/// let mark = Mark::from(u64::from(desk) << 32 | u64::from(start));
/// assert_eq!(mark.to_string(), "0000000300000029");
/// assert_eq!(format!("{mark:?}"), "Mark(0000000300000029)");
/// assert_eq!(mark.to_bytes(), [0, 0, 0, 3, 0, 0, 0, 41]);
/// assert_eq!(Mark::from(mark.to_bytes()), mark);
/// ```
#[derive(Clone, Copy, PartialEq, Eq, PartialOrd, Ord, Hash)]
pub struct Mark(u64);

impl Mark {
    /// The bytes as a message has them, the highest first.
    pub fn to_bytes(self) -> [u8; 8] {
        self.0.to_be_bytes()
    }

    /// The mark that a message bears, for a host that hands each wall only its own desk's. There is none
    /// where a wall refuses the bytes by [`Refusal::Length`](crate::Refusal::Length) or
    /// [`Refusal::Version`](crate::Refusal::Version), whatever its own mark is.
    ///
    /// ```
    /// use mulkefi::{Desk, Drawing, Edit, Kind, Mark, Operation};
    ///
    /// let mut drawing = Drawing::new();
    /// let (a, b) = (drawing.add_point(0.0, 0.0), drawing.add_point(4.0, 0.0));
    /// let curve = drawing.add_curve(Kind::Line { a, b });
    /// let mut desk = Desk::start(&drawing.to_image(), Mark::from(5))?;
    /// let edit = Edit { operation: Operation::Split, curve, x: 1.0, y: 0.0 };
    /// let message = desk.edit(&edit)?.message;
    /// assert_eq!(Mark::of_message(&message), Some(desk.mark()));
    /// assert_eq!(Mark::of_message(&message[..37]), None);
    /// # Ok::<(), mulkefi::Refusal>(())
    /// ```
    pub fn of_message(bytes: &[u8]) -> Option<Mark> {
        let is_message = bytes.len() == MESSAGE_SIZE
            && bytes[VERSION_AT] == MESSAGE_VERSION
            && u32_at(bytes, 0) as usize == MESSAGE_SIZE - LENGTH_SIZE;
        is_message.then(|| Mark::from(field::<8>(bytes, MARK_AT)))
    }
}

impl From<u64> for Mark {
    fn from(mark: u64) -> Mark {
        Mark(mark)
    }
}

impl From<[u8; 8]> for Mark {
    fn from(bytes: [u8; 8]) -> Mark {
        Mark(u64::from_be_bytes(bytes))
    }
}

impl From<Mark> for u64 {
    fn from(mark: Mark) -> u64 {
        mark.0
    }
}

/// Sixteen hexadecimal digits.
impl fmt::Display for Mark {
    fn fmt(&self, f: &mut fmt::Formatter<'_>) -> fmt::Result {
        write!(f, "{:016x}", self.0)
    }
}

impl fmt::Debug for Mark {
    fn fmt(&self, f: &mut fmt::Formatter<'_>) -> fmt::Result {
        write!(f, "Mark({self})")
    }
}
