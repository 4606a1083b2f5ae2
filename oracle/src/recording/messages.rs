//! The list of messages: every size, every field at its limits, every bit of the mark, every set of
//! faults, and some of each damage.
//!
//! The input of an entry is a wall's mark in eight big-endian bytes, and the bytes that it is given.

use super::List;
use crate::bytes::{put, u64_at};
use crate::generate::messages::delivery;
use crate::generate::numbers::EDGE_FLOATS;
use crate::generate::random::Random;
use crate::image::LENGTH_SIZE;
use crate::message::*;
use crate::refusal::Refusal;

const ENTRIES: usize = 600;
/// Eight bytes of which no two are alike.
const MARK: Mark = 0x0123_4567_89ab_cdef;

pub fn messages(seed: u64) -> List<Message> {
    let mut random = Random::new(seed);
    let mut list = List::new(outcome_of);
    for operation in Operation::ALL {
        let message = Message { number: 1, edit: Edit { operation, curve: 3, x: 1.0, y: 3.0 } };
        for mark in [0, MARK, Mark::MAX] {
            add(&mut list, mark, &to_bytes(&message, mark));
        }
    }
    let edit = Edit { operation: Operation::Trim, curve: u32::MAX, x: -0.0, y: 1e6 };
    let good = to_bytes(&Message { number: u32::MAX, edit }, MARK);
    add_sizes(&mut list, &good);
    add_version_1(&mut list, &good);
    add_edges(&mut list, &good);
    add_marks(&mut list, &good);
    add_sets_of_faults(&mut list, &good);
    while list.len() < ENTRIES {
        let (mark, bytes) = delivery(&mut random);
        add(&mut list, mark, &bytes);
    }
    list
}

fn add(list: &mut List<Message>, mark: Mark, bytes: &[u8]) {
    list.add([&mark.to_be_bytes(), bytes].concat());
}

/// The outcome of reading what an entry holds.
fn outcome_of(entry: &[u8]) -> Result<Message, Refusal> {
    read(&entry[MARK_SIZE..], u64_at(entry, 0))
}

/// The message cut or lengthened to each size, the length field following or not, and of another
/// version, which is looked at before the whole size.
fn add_sizes(list: &mut List<Message>, good: &[u8]) {
    for size in 0..=SIZE + 2 {
        let mut bytes = good.to_vec();
        bytes.resize(size, 0);
        add(list, MARK, &bytes);
        if size > LENGTH_SIZE {
            put(&mut bytes, 0, ((size - LENGTH_SIZE) as u32).to_be_bytes());
            add(list, MARK, &bytes);
            bytes[VERSION_AT] += 1;
            add(list, MARK, &bytes);
        }
    }
}

/// The message as version 1 has it, without a mark, and the same bytes said to be of version 2.
fn add_version_1(list: &mut List<Message>, good: &[u8]) {
    let mut bytes = [&good[..MARK_AT], &good[NUMBER_AT..]].concat();
    let length = (bytes.len() - LENGTH_SIZE) as u32;
    put(&mut bytes, 0, length.to_be_bytes());
    for version in [1, VERSION] {
        bytes[VERSION_AT] = version;
        add(list, MARK, &bytes);
    }
}

/// Each byte of the leading fields but the mark at its limits, and the pick at every edge.
fn add_edges(list: &mut List<Message>, good: &[u8]) {
    let length = LENGTH as u8;
    for at in (0..MARK_AT).chain(NUMBER_AT..CURVE_AT) {
        for value in [0, 1, 2, 3, 4, length - 1, length, length + 1, 255] {
            let mut bytes = good.to_vec();
            bytes[at] = value;
            add(list, MARK, &bytes);
        }
    }
    for bits in EDGE_FLOATS {
        let mut bytes = good.to_vec();
        put(&mut bytes, X_AT, bits.to_be_bytes());
        add(list, MARK, &bytes);
    }
}

/// Each bit of the mark another, and marks that a careless comparison takes for it: other at the wall,
/// in the message, and in both.
fn add_marks(list: &mut List<Message>, good: &[u8]) {
    for bit in 0..Mark::BITS {
        add(list, MARK ^ 1 << bit, good);
    }
    let low_half = Mark::from(u32::MAX);
    let others = [
        0,
        Mark::MAX,
        MARK + 1,
        MARK - 1,
        MARK ^ low_half,
        MARK ^ !low_half,
        MARK & low_half,
        MARK.swap_bytes(),
        MARK.rotate_left(32),
        !MARK,
    ];
    for other in others {
        let mut bytes = good.to_vec();
        add(list, other, &bytes);
        put(&mut bytes, MARK_AT, other.to_be_bytes());
        add(list, MARK, &bytes);
        add(list, other, &bytes);
    }
}

/// Each set of faults, which shows which test comes first.
fn add_sets_of_faults(list: &mut List<Message>, good: &[u8]) {
    let faults: [fn(&mut Vec<u8>); 6] = [
        |bytes| bytes[VERSION_AT] -= 1,
        |bytes| bytes[VERSION_AT - 1] -= 1,
        |bytes| bytes[NUMBER_AT - 1] ^= 1,
        |bytes| bytes[NUMBER_AT..OPERATION_AT].fill(0),
        |bytes| bytes[OPERATION_AT] = 4,
        |bytes| bytes.truncate(SIZE - 1),
    ];
    for set in 0..1 << faults.len() {
        let mut bytes = good.to_vec();
        for (place, fault) in faults.iter().enumerate() {
            if set >> place & 1 == 1 {
                fault(&mut bytes);
            }
        }
        add(list, MARK, &bytes);
    }
}
