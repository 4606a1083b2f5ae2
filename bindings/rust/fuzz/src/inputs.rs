//! Images, edits and messages, good, damaged and never any.

use crate::guard::Edge;
use oracle::call::Call;
use oracle::generate::random::Random;
use oracle::generate::{calls, image_bytes, marks, messages};
use oracle::image::{CURVE_SIZE, HEADER_SIZE, POINT_SIZE, RELATION_SIZE};
use oracle::message::{self, Edit, Mark, Message, Operation};

/// More than any image, and what an edit adds to it.
pub const BUFFER: usize = 6 * 4_096;
/// Longer bytes are cut here, so that they fit with all that is added to them.
const LONGEST: usize = 24_000;

pub fn edge(random: &mut Random) -> Edge {
    if random.one_in(4) {
        Edge::Before
    } else {
        Edge::Behind
    }
}

/// An image with an edit of it; now and then some other bytes, or one byte short of a whole.
pub fn call(random: &mut Random) -> Call {
    let mut call = if random.one_in(2) { calls::cut(random) } else { calls::extension(random) };
    match random.below(16) {
        0 => call.image = image_bytes(random),
        1 => call.image = noise(random, 600),
        2 => shorten(random, &mut call.image),
        3 => mutate(random, &mut call.image),
        4 => call.operation = random.bits() as u32,
        5 => (call.x, call.y) = (any_float(random), any_float(random)),
        _ => {}
    }
    call.image.truncate(LONGEST);
    call
}

/// Bytes of an image, half of them damaged, or one that never was.
pub fn image(random: &mut Random) -> Vec<u8> {
    let mut bytes = image_bytes(random);
    match random.below(6) {
        0 => bytes = noise(random, 200),
        1 => shorten(random, &mut bytes),
        2 => mutate(random, &mut bytes),
        3 if random.one_in(20) => bytes.resize(random.pick(&[21_135, 21_136, LONGEST]), 1),
        _ => {}
    }
    bytes.truncate(LONGEST);
    bytes
}

fn noise(random: &mut Random, most: usize) -> Vec<u8> {
    let size = random.below(most);
    let plain = random.one_in(2);
    let byte = |random: &mut Random| match plain {
        true => random.pick(&[0, 0, 0, 1, 2, 255]),
        false => random.bits() as u8,
    };
    (0..size).map(|_| byte(random)).collect()
}

/// Nothing, or one byte less than the whole, the header or a table.
fn shorten(random: &mut Random, bytes: &mut Vec<u8>) {
    let whole = bytes.len();
    let record = random.pick(&[POINT_SIZE, CURVE_SIZE, RELATION_SIZE]);
    let ends = [1, 4, 5, HEADER_SIZE, HEADER_SIZE + record, whole.saturating_sub(record), whole];
    let size = random.pick(&ends).saturating_sub(1);
    bytes.truncate(if random.one_in(8) { 0 } else { size });
    if random.one_in(2) {
        fix_length(bytes);
    }
}

/// So that the length field agrees, and more of the tests behind it are met.
fn fix_length(bytes: &mut [u8]) {
    if let Some(size) = bytes.len().checked_sub(4) {
        bytes[..4].copy_from_slice(&(size as u32).to_be_bytes());
    }
}

fn mutate(random: &mut Random, bytes: &mut [u8]) {
    if bytes.is_empty() {
        return;
    }
    for _ in 0..1 + random.below(4) {
        let at = random.below(bytes.len());
        let any = random.bits() as u8;
        bytes[at] = random.pick(&[0, 1, 127, 128, 255, any, bytes[at] ^ 1]);
    }
}

fn any_float(random: &mut Random) -> f64 {
    f64::from_bits(random.float_bits())
}

pub fn count(random: &mut Random) -> u32 {
    let any = random.bits() as u32;
    random.pick(&[0, 1, 5, any, u32::MAX - 1, u32::MAX])
}

/// The image's length, or another that the caller may claim, over the buffer's too.
pub fn claimed(random: &mut Random, len: usize, room: usize) -> usize {
    if !random.one_in(8) {
        return len;
    }
    let others = [0, 1, len.saturating_sub(1), len + 1, room, room + 1, usize::MAX, usize::MAX / 2];
    random.pick(&others)
}

/// A buffer with the image at its front: ample, exact, or too short for the image itself.
pub fn buffer(random: &mut Random, image: &[u8]) -> Vec<u8> {
    let len = image.len();
    let short = len.saturating_sub(1);
    let rooms =
        [(8, len + 400), (4, len + 150), (3, len), (1, len + 1), (1, 21_135), (1, short), (1, 0)];
    let room = random.weighted(&rooms);
    let mut bytes: Vec<u8> = (0..room).map(|at| (at % 251) as u8).collect();
    let kept = len.min(room);
    bytes[..kept].copy_from_slice(&image[..kept]);
    bytes
}

/// A message for a wall with this mark and count: mostly the next one of its desk, else one of another desk,
/// whose mark is near to the wall's or far from it.
pub fn message(random: &mut Random, call: &Call, mark: Mark, count: u32) -> Vec<u8> {
    let operation = call.operation().unwrap_or(Operation::Trim);
    let edit = Edit { operation, curve: call.curve, x: call.x, y: call.y };
    let next = count.saturating_add(1);
    let number = random.pick(&[next, next, next, next, next, count, next.saturating_add(1)]);
    let mark = marks::delivered(random, mark);
    let mut bytes = message::to_bytes(&Message { number, edit }, mark).to_vec();
    match random.below(12) {
        0 => bytes = messages::message_bytes(random, mark),
        1 => bytes = noise(random, 64),
        2 => bytes.truncate(random.pick(&[0, 1, 4, 5, message::SIZE - 1])),
        3 => mutate(random, &mut bytes),
        _ => {}
    }
    bytes
}
