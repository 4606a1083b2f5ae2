//! What the programs share: edits of bridges, the timing, the lines of desk and wall, and those of
//! catch-ups.

pub mod bridge;
pub mod catch_ups;
pub mod desk_and_wall;
pub mod timing;
