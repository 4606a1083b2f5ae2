//! Where and why bytes are no image, or no message.

use crate::refusal::Refusal;
use std::fmt;
use std::ops::Range;

/// The tables of an image.
#[derive(Clone, Copy, Debug, PartialEq, Eq)]
pub enum Table {
    /// That of the points.
    Points,
    /// That of the curves.
    Curves,
    /// That of the relations.
    Relations,
}

/// The first rule that bytes break, in the order in which an image or a message is tested; within a
/// record's values, and within its ids, in the order of its bytes.
///
/// Of an image:
///
/// | refusal | to blame |
/// |---|---|
/// | 1 | no single byte: size and length field disagree, or bytes are missing at the end |
/// | 2 | the version byte |
/// | 3 | the count that is over its limit; no single byte where counts and size disagree |
/// | 4 | the field, the record's kind being taken as right |
/// | 5 | no single byte: one id does not suit another or the table that it names |
///
/// Of a message:
///
/// | refusal | to blame |
/// |---|---|
/// | 1 | no single byte where the size is not 38; else the length field, which is not 34 |
/// | 2 | the version byte |
/// | 6 | the number, which is 0, or the operation |
#[derive(Clone, Debug, PartialEq, Eq)]
pub struct Fault {
    /// The refusal by which the engine answers the same bytes.
    pub refusal: Refusal,
    /// The field where the rule is broken, or the end where bytes are missing.
    pub field: Range<usize>,
    /// The record that the field is in, by its place in its table.
    pub record: Option<(Table, usize)>,
    /// Whether the field is wrong whatever the others hold.
    pub alone: bool,
    /// What the rule says of the field, in a few words.
    pub why: &'static str,
}

impl fmt::Display for Fault {
    fn fmt(&self, f: &mut fmt::Formatter<'_>) -> fmt::Result {
        match self.field.len() {
            0 => write!(f, "end of the bytes at {}", self.field.start)?,
            1 => write!(f, "byte {}", self.field.start)?,
            _ => write!(f, "bytes {} to {}", self.field.start, self.field.end - 1)?,
        }
        if let Some((table, place)) = self.record {
            let name = match table {
                Table::Points => "point",
                Table::Curves => "curve",
                Table::Relations => "relation",
            };
            write!(f, ", in {name} {place} of its table")?;
        }
        write!(f, ": {}", self.why)?;
        if !self.alone {
            write!(f, " (no single byte is to blame)")?;
        }
        Ok(())
    }
}

/// The source of a fault is its refusal.
///
/// ```
/// use mulkefi::{read, Refusal};
/// use std::error::Error;
///
/// let fault = read(&[]).unwrap_err();
/// let source = fault.source().and_then(|source| source.downcast_ref());
/// assert_eq!(source, Some(&Refusal::Length));
/// ```
impl std::error::Error for Fault {
    fn source(&self) -> Option<&(dyn std::error::Error + 'static)> {
        Some(&self.refusal)
    }
}
