//! The message of an edit: fields of fixed size, one behind the other.

use crate::bytes::{f64_at, put, u32_at, u64_at};
use crate::drawing::Id;
use crate::image::LENGTH_SIZE;
use crate::refusal::Refusal;

/// What the host gives a desk and its walls at their start, and no other desk. Any number is one.
pub type Mark = u64;

pub const VERSION: u8 = 2;
pub const MARK_SIZE: usize = size_of::<Mark>();
/// What the length field of a message holds.
pub const LENGTH: u32 = (SIZE - LENGTH_SIZE) as u32;

// Where the fields stand behind the length field, and where the last of them ends.
pub const VERSION_AT: usize = LENGTH_SIZE;
pub const MARK_AT: usize = VERSION_AT + 1;
pub const NUMBER_AT: usize = MARK_AT + MARK_SIZE;
pub const OPERATION_AT: usize = NUMBER_AT + 4;
pub const CURVE_AT: usize = OPERATION_AT + 1;
pub const X_AT: usize = CURVE_AT + 4;
pub const Y_AT: usize = X_AT + 8;
pub const SIZE: usize = Y_AT + 8;

#[derive(Clone, Copy, Debug, PartialEq, Eq)]
#[repr(u8)]
pub enum Operation {
    Trim = 1,
    Split = 2,
    Extend = 3,
}

impl Operation {
    pub const ALL: [Operation; 3] = [Operation::Trim, Operation::Split, Operation::Extend];

    pub fn code(self) -> u8 {
        self as u8
    }

    fn from_code(code: u8) -> Option<Operation> {
        Operation::ALL.into_iter().find(|operation| operation.code() == code)
    }
}

/// What is done to which curve, and where the finger was.
#[derive(Clone, Copy, Debug, PartialEq)]
pub struct Edit {
    pub operation: Operation,
    pub curve: Id,
    pub x: f64,
    pub y: f64,
}

/// An edit with its number. The pick may be any bits; the edit's own tests judge it.
#[derive(Clone, Copy, Debug, PartialEq)]
pub struct Message {
    pub number: u32,
    pub edit: Edit,
}

/// Reads a message of the desk with this mark, or says why it is none.
pub fn read(bytes: &[u8], mark: Mark) -> Result<Message, Refusal> {
    if bytes.len() <= LENGTH_SIZE {
        return Err(Refusal::Length);
    }
    if bytes[VERSION_AT] != VERSION {
        return Err(Refusal::Version);
    }
    if bytes.len() != SIZE || u32_at(bytes, 0) != LENGTH {
        return Err(Refusal::Length);
    }
    if u64_at(bytes, MARK_AT) != mark {
        return Err(Refusal::Foreign);
    }
    let number = u32_at(bytes, NUMBER_AT);
    let operation = Operation::from_code(bytes[OPERATION_AT]).ok_or(Refusal::Operation)?;
    if number == 0 {
        return Err(Refusal::Operation);
    }
    let (curve, x, y) = (u32_at(bytes, CURVE_AT), f64_at(bytes, X_AT), f64_at(bytes, Y_AT));
    Ok(Message { number, edit: Edit { operation, curve, x, y } })
}

/// Writes a message of the desk with this mark to the front of a buffer with room for it.
pub fn write(message: &Message, mark: Mark, out: &mut [u8]) -> Result<usize, Refusal> {
    let out = out.get_mut(..SIZE).ok_or(Refusal::Buffer)?;
    out.copy_from_slice(&to_bytes(message, mark));
    Ok(SIZE)
}

pub fn to_bytes(message: &Message, mark: Mark) -> [u8; SIZE] {
    let edit = &message.edit;
    let mut bytes = [0; SIZE];
    put(&mut bytes, 0, LENGTH.to_be_bytes());
    bytes[VERSION_AT] = VERSION;
    put(&mut bytes, MARK_AT, mark.to_be_bytes());
    put(&mut bytes, NUMBER_AT, message.number.to_be_bytes());
    bytes[OPERATION_AT] = edit.operation.code();
    put(&mut bytes, CURVE_AT, edit.curve.to_be_bytes());
    put(&mut bytes, X_AT, edit.x.to_bits().to_be_bytes());
    put(&mut bytes, Y_AT, edit.y.to_bits().to_be_bytes());
    bytes
}
