//! What is on the air of a hall beside its desks' messages.

use oracle::bytes;
use oracle::edit::Refused;
use oracle::generate::{marks, random::Random};
use oracle::message::*;
use oracle::refusal::Refusal;
use oracle::replication::Delivery;

/// A desk's message, or any bytes, under a mark that neither desk has.
pub fn stray(random: &mut Random, desks: [Mark; 2], message: Option<Vec<u8>>) -> Vec<u8> {
    let near = random.pick(&desks);
    let mut mark = marks::foreign(random, near);
    while desks.contains(&mark) {
        mark = marks::foreign(random, near);
    }
    let mut stray = message.unwrap_or_else(|| any_bytes(random));
    bytes::put(&mut stray, MARK_AT, mark.to_be_bytes());
    stray
}

/// Long enough for a mark; mostly as long as a message, and mostly with its length and version.
fn any_bytes(random: &mut Random) -> Vec<u8> {
    let size = if random.one_in(4) { NUMBER_AT + random.below(SIZE) } else { SIZE };
    let mut any: Vec<u8> = (0..size).map(|_| random.bits() as u8).collect();
    if !random.one_in(4) {
        bytes::put(&mut any, 0, LENGTH.to_be_bytes());
        any[VERSION_AT] = VERSION;
    }
    any
}

/// Whether a wall refuses what its own desk did not write.
pub fn is_refusal_of_other_desk(outcome: &Result<Delivery, Refused>) -> bool {
    let refusals = [Refusal::Length, Refusal::Version, Refusal::Foreign];
    matches!(outcome, Err(Refused { refusal, place: None }) if refusals.contains(refusal))
}
