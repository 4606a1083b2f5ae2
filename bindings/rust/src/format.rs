//! Sizes, places and limits of the two formats.

use std::ops::RangeInclusive;

/// The size of a message.
pub const MESSAGE_SIZE: usize = 38;
/// How many messages a desk's window holds: its last ones.
///
/// ```
/// use mulkefi::{MESSAGE_SIZE, WINDOW_MESSAGES, WINDOW_SIZE};
///
/// assert_eq!((WINDOW_MESSAGES, WINDOW_SIZE), (64, 64 * MESSAGE_SIZE));
/// ```
pub const WINDOW_MESSAGES: usize = 64;
/// The size of a desk's window. [`Desk::window`](crate::Desk::window) says what stands where.
///
/// ```
/// assert_eq!(mulkefi::WINDOW_SIZE, 2432);
/// ```
pub const WINDOW_SIZE: usize = WINDOW_MESSAGES * MESSAGE_SIZE;
/// The size of the image whose tables are full.
pub const LARGEST_IMAGE: usize = image_size([MOST_POINTS, MOST_CURVES, MOST_RELATIONS]);

pub const MOST_POINTS: usize = 512;
pub const MOST_CURVES: usize = 128;
pub const MOST_RELATIONS: usize = 256;

pub const IMAGE_VERSION: u8 = 1;
pub const MESSAGE_VERSION: u8 = 2;
/// In both formats the length field counts the bytes behind it, and the version byte comes next.
pub const LENGTH_SIZE: usize = 4;
pub const VERSION_AT: usize = LENGTH_SIZE;
/// Length, version, next id and three counts.
pub const HEADER_SIZE: usize = 15;
pub const POINT_SIZE: usize = 21;
pub const CURVE_SIZE: usize = 47;
pub const RELATION_SIZE: usize = 17;
/// Points that a curve's record has room for.
pub const SLOTS: usize = 8;

pub const GREATEST_COORDINATE: f64 = 1e6;
pub const RADIUS: RangeInclusive<f64> = 1e-6..=1e6;
pub const VALUE: RangeInclusive<f64> = 0.0..=4e6;

/// Where the fields of a message stand behind its length and version, each with the highest byte first.
///
/// ```
/// use mulkefi::message::{CURVE_AT, MARK_AT, NUMBER_AT, OPERATION_AT, X_AT, Y_AT};
/// use mulkefi::{Desk, Drawing, Edit, Kind, Mark, Operation};
///
/// let mut drawing = Drawing::new();
/// let (a, b) = (drawing.add_point(0.0, 0.0), drawing.add_point(4.0, 0.0));
/// let curve = drawing.add_curve(Kind::Line { a, b });
/// let mut desk = Desk::start(&drawing.to_image(), Mark::from(0x0102_0304_0506_0708))?;
/// let edit = Edit { operation: Operation::Split, curve, x: 1.0, y: 3.0 };
/// let message = desk.edit(&edit)?.message;
/// assert_eq!(message[..MARK_AT], [0, 0, 0, 34, 2]);
/// assert_eq!(message[MARK_AT..NUMBER_AT], desk.mark().to_bytes());
/// assert_eq!(message[NUMBER_AT..OPERATION_AT], desk.count().to_be_bytes());
/// assert_eq!(message[OPERATION_AT..CURVE_AT], [edit.operation.code()]);
/// assert_eq!(message[CURVE_AT..X_AT], edit.curve.to_be_bytes());
/// assert_eq!(message[X_AT..Y_AT], edit.x.to_be_bytes());
/// assert_eq!(message[Y_AT..], edit.y.to_be_bytes());
/// # Ok::<(), mulkefi::Refusal>(())
/// ```
pub mod message {
    /// Eight bytes.
    pub const MARK_AT: usize = 5;
    /// Four bytes: the edit's number.
    pub const NUMBER_AT: usize = 13;
    /// One byte.
    pub const OPERATION_AT: usize = 17;
    /// Four bytes: the curve's id.
    pub const CURVE_AT: usize = 18;
    /// Eight bytes: the pick's x.
    pub const X_AT: usize = 22;
    /// Eight bytes: the pick's y.
    pub const Y_AT: usize = 30;
}

/// The size of an image with so many points, curves and relations.
pub const fn image_size(counts: [usize; 3]) -> usize {
    HEADER_SIZE + POINT_SIZE * counts[0] + CURVE_SIZE * counts[1] + RELATION_SIZE * counts[2]
}
