//! Bytes that print as hexadecimal.

use oracle::message::Mark;
use std::fmt;

#[derive(Clone, PartialEq, Eq)]
pub struct Hex(pub Vec<u8>);

impl fmt::Debug for Hex {
    fn fmt(&self, f: &mut fmt::Formatter<'_>) -> fmt::Result {
        write!(f, "{} bytes ", self.0.len())?;
        self.0.iter().try_for_each(|byte| write!(f, "{byte:02x}"))
    }
}

/// A mark, which prints as its bytes in a message do.
#[derive(Clone, Copy)]
pub struct HexMark(pub Mark);

impl fmt::Debug for HexMark {
    fn fmt(&self, f: &mut fmt::Formatter<'_>) -> fmt::Result {
        write!(f, "{:016x}", self.0)
    }
}
