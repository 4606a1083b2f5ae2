//! The stack that calls need.

/// The stack that a thread needs for any call of this crate.
///
/// A call of the engine takes some 50 kB, and this crate keeps its buffers on the heap: a thread that
/// starts, edits, delivers and catches up was measured to need 60 KiB in a debug build, and 56 KiB in a
/// release build. The main thread and threads that [`std::thread::spawn`] starts have more than this
/// constant; a host that sets the stack of a thread gives it this much, and what its own code needs.
///
/// ```
/// use mulkefi::{Desk, Drawing, Edit, Kind, Mark, Operation, STACK_SIZE};
/// use std::thread::Builder;
///
/// let mut drawing = Drawing::new();
/// let (a, b) = (drawing.add_point(0.0, 0.0), drawing.add_point(4.0, 0.0));
/// let curve = drawing.add_curve(Kind::Line { a, b });
/// let mut desk = Desk::start(&drawing.to_image(), Mark::from(7))?;
///
/// let thread = Builder::new().stack_size(STACK_SIZE).spawn(move || {
///     let split = Edit { operation: Operation::Split, curve, x: 1.0, y: 0.0 };
///     desk.edit(&split).map(|accepted| (desk, accepted.message))
/// })?;
/// let (desk, message) = thread.join().expect("the thread does not panic")?;
/// assert_eq!(desk.catch_up(0)?, [message]);
/// # Ok::<(), Box<dyn std::error::Error>>(())
/// ```
pub const STACK_SIZE: usize = 128 * 1024;
