//! Stand-in for the geometry crate that the upstream edits use: plane vectors and exact curve
//! pieces. Every operation rounds once and runs from left to right as written.

mod seg2;
mod vec2;

pub use seg2::{evaluate, Seg2};
pub use vec2::{turn, Vec2, FULL_TURN};
