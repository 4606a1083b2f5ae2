//! Catch-ups for tests and the fuzz run: windows of every state, with counts and rooms about each limit, and a
//! plain reading of what a catch-up answers and writes.

pub mod plain;

mod cases;
mod distance;
mod room;
mod state;

pub use cases::Case;
pub use distance::Distance;
pub use room::Room;
pub use state::WindowState;
