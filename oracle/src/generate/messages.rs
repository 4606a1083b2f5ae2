//! Edits, their messages, and damaged messages.

use super::marks;
use super::numbers::EDGE_FLOATS;
use super::random::Random;
use crate::bytes::{put, u64_at};
use crate::drawing::Id;
use crate::image::LENGTH_SIZE;
use crate::message::*;

/// A message that a desk could write, or a sender make up: its fields are in range.
pub fn message(random: &mut Random) -> Message {
    let number = match random.below(8) {
        0 => random.pick(&[u32::MAX, u32::MAX - 1]),
        1 => (random.bits() as u32).max(1),
        _ => 1 + random.below(9) as u32,
    };
    let curve = match random.below(8) {
        0 => random.pick(&[0, Id::MAX]),
        _ => random.below(12) as Id,
    };
    let operation = random.pick(&Operation::ALL);
    Message {
        number,
        edit: Edit { operation, curve, x: coordinate(random), y: coordinate(random) },
    }
}

/// A pick's coordinate: any bits at times, else one that an image may hold.
fn coordinate(random: &mut Random) -> f64 {
    if random.one_in(5) {
        f64::from_bits(random.float_bits())
    } else {
        random.coordinate()
    }
}

/// The bytes of a message under a mark, two thirds of them damaged.
pub fn message_bytes(random: &mut Random, mark: Mark) -> Vec<u8> {
    let mut bytes = to_bytes(&message(random), mark).to_vec();
    if !random.one_in(3) {
        damage(random, &mut bytes);
    }
    bytes
}

/// The mark of a wall, and bytes for it: a message of its own desk or another's, mostly damaged.
pub fn delivery(random: &mut Random) -> (Mark, Vec<u8>) {
    let own = marks::mark(random);
    let mark = marks::delivered(random, own);
    (own, message_bytes(random, mark))
}

/// What a message without a mark has.
const VERSION_1_SIZE: usize = 30;

/// A fault of a message, by the field that has it.
#[derive(Clone, Copy, Debug, PartialEq, Eq)]
pub enum Fault {
    /// Too few bytes or too many, which the length field does not follow.
    Size,
    Length,
    Version,
    Mark,
    Number,
    Operation,
    Curve,
    Pick,
    /// Any byte.
    Byte,
}

const FAULTS: [(usize, Fault); 9] = [
    (3, Fault::Size),
    (1, Fault::Length),
    (1, Fault::Version),
    (3, Fault::Mark),
    (1, Fault::Number),
    (1, Fault::Operation),
    (1, Fault::Curve),
    (1, Fault::Pick),
    (1, Fault::Byte),
];

/// One fault, at times a second one, which shows which test comes first.
pub fn damage(random: &mut Random, bytes: &mut Vec<u8>) {
    for _ in 0..random.weighted(&[(2, 1), (1, 2)]) {
        let fault = random.weighted(&FAULTS);
        spoil(random, bytes, fault);
    }
}

/// Puts a fault into a message, unless its bytes end before the field does.
pub fn spoil(random: &mut Random, bytes: &mut Vec<u8>, fault: Fault) {
    match fault {
        Fault::Size => resize(random, bytes),
        Fault::Length => {
            let old = (VERSION_1_SIZE - LENGTH_SIZE) as u32;
            let lengths = [0, 1, old, LENGTH - 1, LENGTH + 1, SIZE as u32, LENGTH << 24, u32::MAX];
            set(bytes, 0, random.pick(&lengths).to_be_bytes());
        }
        Fault::Version => set(bytes, VERSION_AT, [random.pick(&[0, 1, 3, 255])]),
        Fault::Mark => {
            if let Some(mark) = bytes.get(MARK_AT..NUMBER_AT) {
                let mark = marks::foreign(random, u64_at(mark, 0));
                set(bytes, MARK_AT, mark.to_be_bytes());
            }
        }
        Fault::Number => {
            let number = random.pick(&[0u32, 0, 1, 1 << 24, u32::MAX]);
            set(bytes, NUMBER_AT, number.to_be_bytes());
        }
        Fault::Operation => set(bytes, OPERATION_AT, [random.pick(&[0, 4, 5, 255])]),
        Fault::Curve => {
            let curve: Id = random.pick(&[0, 1, 1 << 24, Id::MAX]);
            set(bytes, CURVE_AT, curve.to_be_bytes());
        }
        Fault::Pick => {
            let at = random.pick(&[X_AT, Y_AT]);
            set(bytes, at, random.pick(&EDGE_FLOATS).to_be_bytes());
        }
        Fault::Byte => {
            let at = random.below(SIZE);
            set(bytes, at, [random.bits() as u8]);
        }
    }
}

/// Cuts the bytes anywhere, before a field or to the size of version 1, or has a few too many.
fn resize(random: &mut Random, bytes: &mut Vec<u8>) {
    const FIELDS: [usize; 7] = [VERSION_AT, MARK_AT, NUMBER_AT, OPERATION_AT, CURVE_AT, X_AT, Y_AT];
    let (field, anywhere) = (random.pick(&FIELDS), random.below(SIZE));
    let few = random.pick(&[0, 1, 3, VERSION_1_SIZE]);
    let near = random.pick(&[SIZE - 1, SIZE + 1, 2 * SIZE]);
    let shares = [(4, few), (2, field), (2, anywhere), (3, near)];
    bytes.resize(random.weighted(&shares), 0);
}

fn set<const N: usize>(bytes: &mut [u8], at: usize, value: [u8; N]) {
    if bytes.len() >= at + N {
        put(bytes, at, value);
    }
}
