//! Two screens that cut one drawing alike, to the bit: the proved engine as safe Rust calls.
//!
//! A [`Desk`] and a [`Wall`] start from one image, with one [`Mark`]. Each accepted edit at the desk gives
//! a message of 38 bytes; the wall that gets it applies the same edit. Messages may be lost, come twice or
//! out of order: the wall then waits, and asks for nothing but the message after its count. Messages of
//! other desks may come between: the wall refuses them by their mark. The desk keeps its last 64 messages,
//! from which a wall catches up ([`Desk::catch_up`]); one that is too far back is started again from the
//! desk's present image and count ([`Wall::start_at`]).
//!
//! ```
//! use mulkefi::{Delivery, Desk, Drawing, Edit, Kind, Mark, Operation, Wall};
//!
//! let mut drawing = Drawing::new();
//! let (a, b) = (drawing.add_point(0.0, 0.0), drawing.add_point(4.0, 0.0));
//! let deck = drawing.add_curve(Kind::Line { a, b });
//! let image = drawing.to_image();
//!
//! let mark = Mark::from(7);
//! let mut desk = Desk::start(&image, mark)?;
//! let mut wall = Wall::start(&image, mark)?;
//! let edit = Edit { operation: Operation::Split, curve: deck, x: 1.0, y: 3.0 };
//! let accepted = desk.edit(&edit)?;
//! assert_eq!(wall.deliver(&accepted.message)?, Delivery::Applied(accepted.report));
//! assert_eq!(wall.deliver(&accepted.message)?, Delivery::Old);
//! assert_eq!(desk.image(), wall.image());
//! assert_eq!(desk.count(), wall.count());
//! # Ok::<(), mulkefi::Refusal>(())
//! ```
//!
//! Nothing is altered by a call that is refused. A [`Refusal`] has its number, and a sentence for the
//! person at the screen; where a relation is the reason, it names the first one that is not met
//! ([`Refusal::relation`]). In the repository, `docs/HANDBOOK.md` says what to do at each number,
//! `docs/FORMATS.md` has images and messages byte by byte and what each edit does with a pick, and
//! `docs/HOSTING.md` goes through a host step by step.
//!
//! The engine itself is the static library `mulkefi`; [`raw`] declares its calls. All else is plain Rust
//! for what stands around it, and no part of the proof: [`Drawing`] and [`read`] make images and read them,
//! [`Drawing::nearest`] finds the curve under a finger, [`Stroke::removed`] the piece that an edit removed,
//! [`Message`] has the fields of a message, and [`svg`] draws pictures. A thread that makes calls needs
//! [`STACK_SIZE`] bytes of stack.

#![deny(missing_docs)]

pub mod raw;
pub mod svg;

mod building;
mod desk;
mod drawing;
mod edit;
mod edit_message;
mod fault;
mod format;
mod lend;
mod magnitude;
mod mark;
mod nearest;
mod position;
mod reader;
mod record;
mod refusal;
mod relation;
mod relation_reader;
mod removed;
mod replica;
mod roots;
mod stack;
mod stroke;
mod text;
mod unmet_relation;
mod version;
mod wall;
mod writer;

pub use building::Flags;
pub use desk::{Accepted, Desk};
pub use drawing::{Curve, Drawing, Id, Kind, Point};
pub use edit::{Edit, Operation, Report};
pub use edit_message::Message;
pub use fault::{Fault, Table};
pub use format::{message, LARGEST_IMAGE, MESSAGE_SIZE, WINDOW_MESSAGES, WINDOW_SIZE};
pub use magnitude::{largest_magnitude, Magnitude};
pub use mark::Mark;
pub use position::{Bounds, Position};
pub use reader::read;
pub use refusal::Refusal;
pub use relation::Relation;
pub use roots::{roots, Roots, MOST_ROOTS};
pub use stack::STACK_SIZE;
pub use stroke::Stroke;
pub use unmet_relation::UnmetRelation;
pub use version::{interface, library_version, versions, LibraryVersion, Versions};
pub use version::{INTERFACE, LIBRARY_VERSION, VERSIONS};
pub use wall::{Delivery, Wall};

/// Asks the engine whether bytes are an image.
///
/// ```
/// use mulkefi::{test, Refusal};
///
/// let empty = [0, 0, 0, 11, 1, 0, 0, 0, 1, 0, 0, 0, 0, 0, 0];
/// assert_eq!(test(&empty), Ok(()));
/// assert_eq!(test(&empty[..14]), Err(Refusal::Length));
/// assert_eq!(test(&[]), Err(Refusal::Length));
/// ```
pub fn test(image: &[u8]) -> Result<(), Refusal> {
    let (bytes, len) = lend::bytes(image);
    // SAFETY: the bytes are lent for the call, which only reads them.
    Refusal::of_answer(unsafe { raw::mulkefi_test(bytes, len) })
}
