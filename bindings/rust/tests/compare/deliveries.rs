//! What comes to walls: their own desks' messages, others', and damaged ones.

use super::coverage::Coverage;
use mulkefi::Mark;
use oracle::bytes::u64_at;
use oracle::generate::marks::Difference;
use oracle::generate::messages::{damage, spoil, Fault};
use oracle::generate::random::Random;
use oracle::message::{self, Edit, Message, MARK_AT};
use oracle::refusal::Refusal;
use oracle::steps::State;

/// What a message would have been to the wall of its own desk.
pub const READINGS: [&str; 4] = ["next", "old", "ahead", "by 6"];

/// The bytes of an edit's message for a wall: mostly the next one of its desk, else an old one or one
/// ahead, another desk's, also with number 0 or an unknown operation, or a damaged one.
pub fn bytes(random: &mut Random, wall: &State, edit: Edit) -> Vec<u8> {
    let State { mark, count, .. } = *wall;
    let next = count.saturating_add(1);
    let any = random.bits() as u32;
    let number = random.weighted(&[(16, next), (1, count), (1, next.saturating_add(1)), (1, any)]);
    let mut bytes = message::to_bytes(&Message { number, edit }, mark).to_vec();
    if random.one_in(8) {
        spoil(random, &mut bytes, Fault::Mark);
        if random.one_in(4) {
            let second = random.pick(&[Fault::Number, Fault::Operation]);
            spoil(random, &mut bytes, second);
        }
    }
    if random.one_in(8) {
        damage(random, &mut bytes);
    }
    bytes
}

/// Counts what came to a wall. The mark that the crate reads in it must be the oracle's.
pub fn add(bytes: &[u8], wall: &State, seen: &mut Coverage) -> Result<(), String> {
    let read = Mark::of_message(bytes).map(u64::from);
    if read != mark_of(bytes) {
        return Err(format!("{bytes:02x?} bears {:?}, not {read:?}", mark_of(bytes)));
    }
    if let Some(bears) = read {
        let difference = Difference::between(wall.mark, bears);
        seen.add_mark(difference);
        if difference != Difference::None {
            seen.add_foreign(reading(bytes, bears, wall.count));
        }
    }
    Ok(())
}

/// By the oracle's reading, which tests the mark behind size and version.
fn mark_of(bytes: &[u8]) -> Option<message::Mark> {
    match message::read(bytes, 0) {
        Err(Refusal::Length | Refusal::Version) => None,
        _ => Some(u64_at(bytes, MARK_AT)),
    }
}

/// What a message is to a wall of its own mark with this count.
fn reading(bytes: &[u8], mark: message::Mark, count: u32) -> &'static str {
    let [next, old, ahead, refused] = READINGS;
    match message::read(bytes, mark) {
        Err(_) => refused,
        Ok(Message { number, .. }) if number <= count => old,
        Ok(Message { number, .. }) if number - count == 1 => next,
        Ok(_) => ahead,
    }
}
