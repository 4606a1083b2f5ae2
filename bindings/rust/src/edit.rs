//! An edit, and what an accepted one reports.

use crate::drawing::Id;

/// What an edit does to a curve.
#[derive(Clone, Copy, Debug, PartialEq, Eq, Hash)]
#[repr(u8)]
pub enum Operation {
    /// Removes the piece of a curve about the pick, up to where others cross it.
    Trim = 1,
    /// Parts a curve at the pick, or a circle where others cross it.
    Split = 2,
    /// Prolongs a line from the end next to the pick until it meets something.
    Extend = 3,
}

impl Operation {
    /// The three operations, by their numbers.
    pub const ALL: [Operation; 3] = [Operation::Trim, Operation::Split, Operation::Extend];

    /// The operation's name, for texts.
    pub fn name(self) -> &'static str {
        match self {
            Operation::Trim => "trim",
            Operation::Split => "split",
            Operation::Extend => "extend",
        }
    }

    /// The number in a message.
    pub fn code(self) -> u8 {
        self as u8
    }

    /// The operation with this number in a message, or none where there is no such one.
    ///
    /// ```
    /// use mulkefi::Operation;
    ///
    /// assert_eq!(Operation::of_code(2), Some(Operation::Split));
    /// assert_eq!(Operation::of_code(0), None);
    /// ```
    pub fn of_code(code: u8) -> Option<Operation> {
        Operation::ALL.into_iter().find(|operation| operation.code() == code)
    }
}

/// What is done to which curve, and where the finger was.
#[derive(Clone, Copy, Debug, PartialEq)]
pub struct Edit {
    /// What is done.
    pub operation: Operation,
    /// The id of the curve that it is done to.
    pub curve: Id,
    /// The pick's x, finite and of magnitude at most 1,000,000.
    pub x: f64,
    /// The pick's y, finite and of magnitude at most 1,000,000.
    pub y: f64,
}

/// The curve that an edit removed and its two ends: all 0 where none went, the ends 0 for a circle.
///
/// Curves that stand and curves that were reported join by the ids of their ends: the pieces of a line
/// or an arc with which the drawing started make one chain from its old start to its old end, those of
/// a circle that was cut one ring. At a wall the drawing is that of its last start, and the reports are
/// those since.
///
/// ```
/// use mulkefi::{read, Desk, Drawing, Edit, Kind, Mark, Operation};
///
/// let mut drawing = Drawing::new();
/// let (a, b) = (drawing.add_point(-9.0, 0.0), drawing.add_point(9.0, 0.0));
/// drawing.add_curve(Kind::Line { a, b });
/// let c = drawing.add_point(0.0, 0.0);
/// let wheel = drawing.add_curve(Kind::Circle { c, radius: 5.0 });
/// let mut desk = Desk::start(&drawing.to_image(), Mark::from(7))?;
///
/// let trim = Edit { operation: Operation::Trim, curve: wheel, x: 0.0, y: 5.0 };
/// let gone = desk.edit(&trim)?.report;
/// let after = read(desk.image()).expect("a desk holds a good image");
/// let left = after.curve(wheel).expect("the arc that is left has the circle's id");
/// assert!(matches!(left.kind, Kind::Arc { a, b, .. } if (a, b) == (gone.end, gone.start)));
/// # Ok::<(), mulkefi::Refusal>(())
/// ```
#[derive(Clone, Copy, Debug, Default, PartialEq, Eq)]
pub struct Report {
    /// The id of the curve that was removed, or 0. A piece that was cut off a curve has an id of its own.
    pub removed: Id,
    /// The id of the point where the removed curve began, or 0.
    pub start: Id,
    /// The id of the point where the removed curve ended, or 0.
    pub end: Id,
}
