//! One record of an image: its fields, and the rules that blame one.

use crate::drawing::Id;
use crate::fault::{Fault, Table};
use crate::refusal::Refusal;
use std::ops::Range;

pub type Reading<T> = Result<T, Fault>;

/// A record's bytes, by where it begins.
pub struct Record<'b> {
    pub bytes: &'b [u8],
    pub at: usize,
    pub table: Table,
    pub place: usize,
}

impl Record<'_> {
    pub fn byte(&self, at: usize) -> u8 {
        self.bytes[self.at + at]
    }

    pub fn id(&self, at: usize) -> Id {
        u32_at(self.bytes, self.at + at)
    }

    pub fn bits(&self, at: usize) -> u64 {
        u64::from_be_bytes(field(self.bytes, self.at + at))
    }

    pub fn float(&self, at: usize) -> f64 {
        f64::from_bits(self.bits(at))
    }

    fn fault<T>(&self, refusal: Refusal, field: Range<usize>, why: &'static str) -> Reading<T> {
        let alone = refusal == Refusal::Value;
        let record = Some((self.table, self.place));
        let field = self.at + field.start..self.at + field.end;
        Err(Fault { refusal, field, record, alone, why })
    }

    /// The rule of a value: 4 where it is broken.
    pub fn value(&self, holds: bool, field: Range<usize>, why: &'static str) -> Reading<()> {
        if holds {
            Ok(())
        } else {
            self.fault(Refusal::Value, field, why)
        }
    }

    /// The rule of an id: 5 where it is broken.
    pub fn named(&self, holds: bool, field: Range<usize>, why: &'static str) -> Reading<()> {
        if holds {
            Ok(())
        } else {
            self.fault(Refusal::Reference, field, why)
        }
    }

    /// The rules of the record's own id, behind the one before.
    pub fn own_id(&self, before: Option<Id>, next: Id) -> Reading<Id> {
        let id = self.id(0);
        self.named(before.unwrap_or(0) < id, 0..4, "id is not above the one before")?;
        self.named(id < next, 0..4, "id is not below the next id")?;
        Ok(id)
    }
}

pub fn u16_at(bytes: &[u8], at: usize) -> u16 {
    u16::from_be_bytes(field(bytes, at))
}

pub fn u32_at(bytes: &[u8], at: usize) -> u32 {
    u32::from_be_bytes(field(bytes, at))
}

/// The bytes of a field.
pub fn field<const N: usize>(bytes: &[u8], at: usize) -> [u8; N] {
    let mut value = [0; N];
    value.copy_from_slice(&bytes[at..at + N]);
    value
}
