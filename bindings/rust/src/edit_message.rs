//! The fields of a message.

use crate::drawing::Id;
use crate::edit::{Edit, Operation};
use crate::fault::Fault;
use crate::format::message::{CURVE_AT, MARK_AT, NUMBER_AT, OPERATION_AT, X_AT, Y_AT};
use crate::format::{LENGTH_SIZE, MESSAGE_SIZE, MESSAGE_VERSION, VERSION_AT};
use crate::mark::Mark;
use crate::record::{field, u32_at};
use crate::refusal::Refusal;
use std::fmt;
use std::ops::Range;

/// A message's fields, for a host that records, routes or shows messages. A desk writes its messages
/// itself, and a wall reads them itself.
///
/// The pick is whatever the message's bits are, a NaN too: whether it is a place is for the wall to say. Two
/// messages whose pick is a NaN are not equal; their bytes may be.
#[derive(Clone, Copy, Debug, PartialEq)]
pub struct Message {
    /// The mark of the desk's start.
    pub mark: Mark,
    /// The edit's number, which counts from 1 at the desk's start. It is not 0 in a message that was read.
    pub number: u32,
    /// What is done.
    pub operation: Operation,
    /// The id of the curve that it is done to.
    pub curve: Id,
    /// The pick's x.
    pub x: f64,
    /// The pick's y.
    pub y: f64,
}

impl Message {
    /// Reads a message, whosever it is, or answers why the bytes are none: [`Refusal::Length`] for fewer than
    /// 5 bytes, [`Refusal::Version`] for the version, [`Refusal::Length`] for a size other than 38 or a
    /// length field other than 34, [`Refusal::Operation`] for number 0 or an unknown operation, in this
    /// order. A [`Wall`](crate::Wall) that has the message's mark refuses the same bytes by the same numbers;
    /// one that has another refuses by [`Refusal::Foreign`] instead of [`Refusal::Operation`].
    ///
    /// ```
    /// use mulkefi::{Desk, Drawing, Edit, Kind, Mark, Message, Operation, Refusal};
    ///
    /// let mut drawing = Drawing::new();
    /// let (a, b) = (drawing.add_point(0.0, 0.0), drawing.add_point(4.0, 0.0));
    /// let curve = drawing.add_curve(Kind::Line { a, b });
    /// let mut desk = Desk::start(&drawing.to_image(), Mark::from(7))?;
    /// let edit = Edit { operation: Operation::Split, curve, x: 1.0, y: 3.0 };
    /// let bytes = desk.edit(&edit)?.message;
    ///
    /// let message = Message::read(&bytes)?;
    /// assert_eq!((message.mark, message.number), (desk.mark(), desk.count()));
    /// assert_eq!(message.edit(), edit);
    /// assert_eq!(message.to_bytes(), bytes);
    /// assert_eq!(Message::read(&bytes[..37]), Err(Refusal::Length));
    /// # Ok::<(), Refusal>(())
    /// ```
    pub fn read(bytes: &[u8]) -> Result<Message, Refusal> {
        Message::inspect(bytes).map_err(|fault| fault.refusal)
    }

    /// Reads a message as [`Message::read`] does, and answers at which bytes it is refused.
    ///
    /// ```
    /// use mulkefi::{Message, Refusal};
    ///
    /// let mut bytes = [0; 38];
    /// bytes[..5].copy_from_slice(&[0, 0, 0, 34, 1]);
    /// let fault = Message::inspect(&bytes).unwrap_err();
    /// assert_eq!((fault.refusal, &fault.field), (Refusal::Version, &(4..5)));
    /// assert_eq!(fault.to_string(), "byte 4: version is not 2");
    /// ```
    pub fn inspect(bytes: &[u8]) -> Result<Message, Fault> {
        let fault = |refusal, field: Range<usize>, alone, why| {
            Err(Fault { refusal, field, record: None, alone, why })
        };
        let end = bytes.len()..bytes.len();
        if bytes.len() <= LENGTH_SIZE {
            return fault(Refusal::Length, end, false, "no version byte");
        }
        if bytes[VERSION_AT] != MESSAGE_VERSION {
            return fault(Refusal::Version, VERSION_AT..MARK_AT, true, "version is not 2");
        }
        if bytes.len() < MESSAGE_SIZE {
            return fault(Refusal::Length, end, false, "message is not whole: it has 38 bytes");
        }
        if bytes.len() > MESSAGE_SIZE {
            let rest = MESSAGE_SIZE..bytes.len();
            return fault(Refusal::Length, rest, false, "bytes behind the message's 38");
        }
        if u32_at(bytes, 0) as usize != MESSAGE_SIZE - LENGTH_SIZE {
            return fault(Refusal::Length, 0..LENGTH_SIZE, true, "length is not 34");
        }
        let number = u32_at(bytes, NUMBER_AT);
        if number == 0 {
            return fault(Refusal::Operation, NUMBER_AT..OPERATION_AT, true, "number is 0");
        }
        let Some(operation) = Operation::of_code(bytes[OPERATION_AT]) else {
            let place = OPERATION_AT..CURVE_AT;
            return fault(Refusal::Operation, place, true, "operation is not from 1 to 3");
        };
        let float = |at| f64::from_bits(u64::from_be_bytes(field(bytes, at)));
        Ok(Message {
            mark: Mark::from(field::<8>(bytes, MARK_AT)),
            number,
            operation,
            curve: u32_at(bytes, CURVE_AT),
            x: float(X_AT),
            y: float(Y_AT),
        })
    }

    /// The edit that the message tells of.
    pub fn edit(&self) -> Edit {
        let Message { operation, curve, x, y, .. } = *self;
        Edit { operation, curve, x, y }
    }

    /// The message's bytes, as a desk writes them. Number 0 is written too, and then refused.
    ///
    /// ```
    /// use mulkefi::{Mark, Message, Operation, Refusal};
    ///
    /// let mark = Mark::from(7);
    /// let message = Message { mark, number: 1, operation: Operation::Trim, curve: 3, x: 1.5, y: -2.0 };
    /// assert_eq!(Message::read(&message.to_bytes()), Ok(message));
    /// let numberless = Message { number: 0, ..message };
    /// assert_eq!(Message::read(&numberless.to_bytes()), Err(Refusal::Operation));
    /// ```
    pub fn to_bytes(&self) -> [u8; MESSAGE_SIZE] {
        let mut bytes = [0; MESSAGE_SIZE];
        let mut put = |at: usize, field: &[u8]| bytes[at..at + field.len()].copy_from_slice(field);
        put(0, &((MESSAGE_SIZE - LENGTH_SIZE) as u32).to_be_bytes());
        put(VERSION_AT, &[MESSAGE_VERSION]);
        put(MARK_AT, &self.mark.to_bytes());
        put(NUMBER_AT, &self.number.to_be_bytes());
        put(OPERATION_AT, &[self.operation.code()]);
        put(CURVE_AT, &self.curve.to_be_bytes());
        put(X_AT, &self.x.to_bits().to_be_bytes());
        put(Y_AT, &self.y.to_bits().to_be_bytes());
        bytes
    }
}

/// The fields, one a line. Coordinates are written so that reading them gives the same bits; of a NaN the
/// bits follow.
///
/// ```
/// use mulkefi::{Mark, Message, Operation};
///
/// let (mark, operation) = (Mark::from(7), Operation::Trim);
/// let message = Message { mark, number: 1, operation, curve: 3, x: 0.1, y: f64::from_bits(!0) };
/// let text = "\
/// mark       0000000000000007
/// number     1
/// operation  trim
/// curve      3
/// pick       0.1, NaN (bits ffffffffffffffff)
/// ";
/// assert_eq!(message.to_string(), text);
/// ```
impl fmt::Display for Message {
    fn fmt(&self, f: &mut fmt::Formatter<'_>) -> fmt::Result {
        let Message { mark, number, operation, curve, x, y } = *self;
        let [x, y] = [x, y].map(|coordinate| match coordinate.is_nan() {
            true => format!("NaN (bits {:016x})", coordinate.to_bits()),
            false => format!("{coordinate:?}"),
        });
        writeln!(f, "mark       {mark}")?;
        writeln!(f, "number     {number}")?;
        writeln!(f, "operation  {}", operation.name())?;
        writeln!(f, "curve      {curve}")?;
        writeln!(f, "pick       {x}, {y}")
    }
}
