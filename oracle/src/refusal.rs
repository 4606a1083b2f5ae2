//! Every refusal of a call, by its number.

/// A refusal; the discriminant is the number that callers, messages and images see.
#[derive(Clone, Copy, Debug, PartialEq, Eq, PartialOrd, Ord)]
#[repr(u8)]
pub enum Refusal {
    /// The bytes are too few, or their number and the length field disagree.
    Length = 1,
    /// The version byte is not one that is read.
    Version = 2,
    /// A table count is over its limit or does not fit the size.
    Count = 3,
    /// A field holds a value that it may not hold.
    Value = 4,
    /// An id is out of order or range, or a reference does not lead where it must.
    Reference = 5,
    /// A message's operation is unknown or its number is 0.
    Operation = 6,
    /// A message's number is not the next one.
    Ahead = 7,
    /// The edit names no curve of the drawing.
    NoCurve = 8,
    /// The pick is not finite or too far away.
    Pick = 9,
    /// The operation does not apply to this kind of curve.
    Kind = 10,
    /// A freeform curve stands in the drawing, and its cuts are not known.
    Freeform = 11,
    /// A split finds no place inside the curve.
    NoPlace = 12,
    /// Relations are not met before an extend.
    Unmet = 13,
    /// The end to move is fixed or used by another curve.
    EndHeld = 14,
    /// The continuation of the line overlaps another curve.
    Overlap = 15,
    /// The line has no direction, or a hit cannot be resolved.
    Unresolved = 16,
    /// Two curves stop the extension at one distance.
    Tie = 17,
    /// The continuation meets nothing.
    NothingMet = 18,
    /// Relations would not be met after the extend.
    Conflict = 19,
    /// The polynomial has no coefficients, too many, or one that is not finite.
    Coefficients = 20,
    /// The work limit is used up.
    Work = 21,
    /// A table has no room for the addition.
    TableFull = 22,
    /// Ids or edit numbers are used up.
    Numbers = 23,
    /// A new coordinate is not finite or out of range.
    Coordinate = 24,
    /// The lent buffer is too short.
    Buffer = 25,
    /// The message after a wall's count has left the desk's window.
    LeftWindow = 26,
    /// A wall's count is above its desk's.
    CountAbove = 27,
    /// A message bears another mark than the wall's.
    Foreign = 28,
}

impl Refusal {
    pub fn number(self) -> u8 {
        self as u8
    }
}

/// Numbers from 0, which is acceptance, to the last refusal's.
pub const OUTCOMES: usize = Refusal::Foreign as usize + 1;

/// The number of an outcome: 0 for acceptance.
pub fn number_of<T>(outcome: &Result<T, Refusal>) -> u8 {
    match outcome {
        Ok(_) => 0,
        Err(refusal) => refusal.number(),
    }
}
