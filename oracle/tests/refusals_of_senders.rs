//! Refusals 1 to 7 and 28, which the sender of an image or message meets.
#![cfg(upstream)]

use oracle::drawing::*;
use oracle::examples::{l, line, point};
use oracle::message::*;
use oracle::refusal::Refusal;
use oracle::replication::{Delivery, Replica};
use oracle::{image, message, validity};

const MARK: Mark = 0x0123_4567_89ab_cdef;
const EDIT: Edit = Edit { operation: Operation::Split, curve: 3, x: 1.0, y: 0.0 };

fn numbered(number: u32) -> [u8; SIZE] {
    to_bytes(&Message { number, edit: EDIT }, MARK)
}

fn damaged(drawing: &Drawing, at: usize, value: u8) -> u8 {
    let mut bytes = image::to_bytes(drawing);
    bytes[at] = value;
    image::read(&bytes).expect_err("refused").number()
}

#[test]
fn refusal_01_length() {
    let bytes = image::to_bytes(&l());
    for size in 0..bytes.len() {
        assert_eq!(image::read(&bytes[..size]), Err(Refusal::Length));
    }
    assert_eq!(damaged(&l(), 3, 0), 1);
    assert_eq!(image::read(&[0, 0, 0, 1, 1]), Err(Refusal::Length));
    let message = numbered(1);
    for size in (0..SIZE).chain([SIZE + 1]) {
        let mut bytes = message.to_vec();
        bytes.resize(size, 0);
        assert_eq!(message::read(&bytes, MARK), Err(Refusal::Length));
    }
}

#[test]
fn refusal_02_version_comes_between_the_lengths() {
    assert_eq!(image::read(&[0, 0, 0, 9, 2]), Err(Refusal::Version));
    assert_eq!(image::read(&[0, 0, 0, 0]), Err(Refusal::Length));
    assert_eq!(message::read(&[0, 0, 0, 34, 1], MARK), Err(Refusal::Version));
    assert_eq!(message::read(&[0, 0, 0, 34], MARK), Err(Refusal::Length));
}

#[test]
fn a_message_of_version_1_is_refused_by_its_version_and_its_size_by_length() {
    let message = numbered(1);
    let mut bytes = [&[0, 0, 0, 26, 1], &message[NUMBER_AT..]].concat();
    assert_eq!(bytes.len(), 30);
    assert_eq!(message::read(&bytes, MARK), Err(Refusal::Version));
    bytes[VERSION_AT] = 2;
    assert_eq!(message::read(&bytes, MARK), Err(Refusal::Length));
    bytes[VERSION_AT] = 1;
    bytes.resize(SIZE, 0);
    assert_eq!(message::read(&bytes, MARK), Err(Refusal::Version));
}

#[test]
fn refusal_03_counts() {
    assert_eq!(damaged(&l(), 10, 1), 3);
    let mut crowded = l();
    crowded.points = (1..=513).map(|id| point(id, 0.0, 0.0)).collect();
    crowded.next_id = 0;
    assert_eq!(validity::check(&crowded), Err(Refusal::Count));
    assert_eq!(image::read(&image::to_bytes(&crowded)), Err(Refusal::Count));
}

#[test]
fn refusal_04_values_come_before_references_of_the_same_record_only() {
    let mut drawing = l();
    drawing.next_id = 0;
    assert_eq!(validity::check(&drawing), Err(Refusal::Value));
    drawing = l();
    drawing.points[1] = point(1, f64::NAN, 0.0);
    assert_eq!(validity::check(&drawing), Err(Refusal::Value));
    drawing.points[0].id = 0;
    assert_eq!(validity::check(&drawing), Err(Refusal::Reference));
    let flags_of_first_point = 15 + 20;
    assert_eq!(damaged(&l(), flags_of_first_point, 2), 4);
}

#[test]
fn refusal_05_references() {
    let mut drawing = l();
    drawing.curves[0] = line(3, 1, 1);
    assert_eq!(validity::check(&drawing), Err(Refusal::Reference));
    drawing = l();
    drawing.relations.push(Relation::ArcSweep { round: 3, value: 1.0 });
    assert_eq!(validity::check(&drawing), Err(Refusal::Reference));
    drawing = l();
    drawing.next_id = 3;
    assert_eq!(image::read(&image::to_bytes(&drawing)), Err(Refusal::Reference));
}

#[test]
fn refusal_06_operation_and_number() {
    let with = |at: usize, value: u8| {
        let mut changed = numbered(1);
        changed[at] = value;
        message::read(&changed, MARK)
    };
    assert_eq!(with(OPERATION_AT - 1, 0), Err(Refusal::Operation));
    assert_eq!(with(OPERATION_AT, 0), Err(Refusal::Operation));
    assert_eq!(with(OPERATION_AT, 4), Err(Refusal::Operation));
    assert!(with(OPERATION_AT, 3).is_ok());
}

#[test]
fn refusal_07_ahead_and_old() {
    let mut wall = Replica::new(l(), MARK);
    assert_eq!(wall.deliver(&numbered(2)), Err(Refusal::Ahead.into()));
    assert!(matches!(wall.deliver(&numbered(1)), Ok(Delivery::Applied(_))));
    assert_eq!(wall.deliver(&numbered(1)), Ok(Delivery::Old));
    assert_eq!(wall.deliver(&numbered(3)), Err(Refusal::Ahead.into()));
}

#[test]
fn refusal_28_any_other_mark() {
    for own in [0, 1, MARK, Mark::MAX] {
        let bytes = to_bytes(&Message { number: 1, edit: EDIT }, own);
        let start = Replica::new(l(), own);
        assert!(matches!(start.clone().deliver(&bytes), Ok(Delivery::Applied(_))));
        let bits = (0..Mark::BITS).map(|bit| own ^ 1 << bit);
        for other in bits.chain([own.wrapping_add(1), own.wrapping_sub(1), !own]) {
            assert_eq!(message::read(&bytes, other), Err(Refusal::Foreign));
            let mut wall = Replica { mark: other, ..start.clone() };
            assert_eq!(wall.deliver(&bytes), Err(Refusal::Foreign.into()));
            assert_eq!(wall, Replica { mark: other, ..start.clone() });
        }
    }
}

#[test]
fn refusal_28_comes_whatever_the_number_and_operation() {
    let mut wall = Replica::new(l(), MARK);
    wall.deliver(&numbered(1)).expect("the first message is applied");
    for number in [0, 1, 2, 3, u32::MAX] {
        for operation in [0, 1, 2, 3, 4, 255] {
            let mut bytes = numbered(number);
            bytes[OPERATION_AT] = operation;
            bytes[MARK_AT] ^= 1;
            assert_eq!(wall.deliver(&bytes), Err(Refusal::Foreign.into()));
        }
    }
    assert_eq!(wall.count, 1);
}

type Fault = fn(&mut Vec<u8>);

/// The faults of a message in the order of their tests, each with its refusal.
const FAULTS: [(Fault, Refusal); 6] = [
    (|bytes| bytes[VERSION_AT] = 1, Refusal::Version),
    (|bytes| bytes[3] = 26, Refusal::Length),
    (|bytes| bytes.push(0), Refusal::Length),
    (|bytes| bytes[MARK_AT] ^= 1, Refusal::Foreign),
    (|bytes| bytes[NUMBER_AT..OPERATION_AT].fill(0), Refusal::Operation),
    (|bytes| bytes[OPERATION_AT] = 4, Refusal::Operation),
];

#[test]
fn of_several_faults_of_a_message_the_first_test_answers() {
    for set in 1..1 << FAULTS.len() {
        let here = |place: &usize| set >> place & 1 == 1;
        let mut bytes = numbered(1).to_vec();
        (0..FAULTS.len()).filter(here).for_each(|place| FAULTS[place].0(&mut bytes));
        let first = (0..FAULTS.len()).find(here).map(|place| FAULTS[place].1);
        assert_eq!(message::read(&bytes, MARK).err(), first, "set {set:06b}");
    }
}
