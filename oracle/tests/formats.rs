//! Images and messages: layout, round trips, and the order of their tests.

use oracle::bytes::u64_at;
use oracle::drawing::*;
use oracle::examples::{l, t};
use oracle::generate::bridges::{self, Size};
use oracle::generate::random::Random;
use oracle::message::{self, Edit, Mark, Message, Operation, MARK_AT, MARK_SIZE, SIZE};
use oracle::recording::{self, SEED};
use oracle::refusal::{number_of, Refusal};
use oracle::{generate, image, validity};
use std::collections::BTreeSet;

#[test]
fn sizes_follow_the_counts() {
    assert_eq!(image::size(&Drawing::empty()), 15);
    assert_eq!(image::size(&l()), 15 + 2 * 21 + 47);
    assert_eq!(image::MAX_SIZE, 21_135);
    let largest = bridges::drawing(&mut Random::new(7), Size::Largest);
    assert_eq!(image::size(&largest), image::MAX_SIZE);
    assert_eq!(validity::check(&largest), Ok(()));
}

#[test]
fn the_image_of_l_byte_by_byte() {
    let bytes = image::to_bytes(&l());
    assert_eq!(bytes[..15], [0, 0, 0, 100, 1, 0, 0, 0, 4, 0, 2, 0, 1, 0, 0]);
    let second_point = [0, 0, 0, 2, 0x40, 0x10, 0, 0, 0, 0, 0, 0, 0, 0, 0, 0, 0, 0, 0, 0, 0];
    assert_eq!(bytes[36..57], second_point);
    assert_eq!(bytes[57..72], [0, 0, 0, 3, 1, 0, 0, 0, 0, 0, 1, 0, 0, 0, 2]);
    assert!(bytes[72..].iter().all(|byte| *byte == 0));
}

#[test]
fn generated_images_come_back_as_they_were() {
    let mut random = Random::new(11);
    for _ in 0..2000 {
        let drawing = bridges::any_drawing(&mut random);
        assert_eq!(validity::check(&drawing), Ok(()));
        let bytes = image::to_bytes(&drawing);
        let read = image::read(&bytes).expect("a good image");
        assert_eq!(image::to_bytes(&read), bytes);
    }
}

#[test]
fn reader_and_tester_agree_on_what_a_drawing_can_hold() {
    let mut random = Random::new(12);
    for _ in 0..5000 {
        let bytes = generate::image_bytes(&mut random);
        if let Ok(mut drawing) = image::read(&bytes) {
            drawing.next_id = drawing.next_id.wrapping_sub(random.below(3) as Id);
            let changed = image::to_bytes(&drawing);
            let read = number_of(&image::read(&changed));
            assert_eq!(read, number_of(&validity::check(&drawing)));
        }
    }
}

#[test]
fn a_written_image_leaves_the_rest_of_the_buffer() {
    let mut out = vec![0xaa; image::size(&t()) + 9];
    assert_eq!(image::write(&t(), &mut out), Ok(out.len() - 9));
    assert!(out.ends_with(&[0xaa; 9]));
    let mut short = vec![0xaa; image::size(&t()) - 1];
    assert_eq!(image::write(&t(), &mut short), Err(Refusal::Buffer));
    assert!(short.iter().all(|byte| *byte == 0xaa));
}

#[test]
fn a_message_byte_by_byte() {
    let edit = Edit { operation: Operation::Extend, curve: 0x0a0b_0c0d, x: 4.0, y: -0.5 };
    let bytes = message::to_bytes(&Message { number: 0x0506_0708, edit }, 0x1011_1213_1415_1617);
    assert_eq!(bytes[..5], [0, 0, 0, 34, 2]);
    assert_eq!(bytes[5..13], [0x10, 0x11, 0x12, 0x13, 0x14, 0x15, 0x16, 0x17]);
    assert_eq!(bytes[13..22], [5, 6, 7, 8, 3, 0x0a, 0x0b, 0x0c, 0x0d]);
    assert_eq!(bytes[22..], [0x40, 0x10, 0, 0, 0, 0, 0, 0, 0xbf, 0xe0, 0, 0, 0, 0, 0, 0]);
}

#[test]
fn a_message_keeps_any_mark_and_pick() {
    for bits in [0, 1, 0x7ff0_0000_0000_0001, u64::MAX, 1 << 63, 0x0123_4567_89ab_cdef] {
        let (x, y) = (f64::from_bits(bits), f64::from_bits(!bits));
        let edit = Edit { operation: Operation::Extend, curve: 0, x, y };
        for mark in [bits, !bits] {
            let bytes = message::to_bytes(&Message { number: u32::MAX, edit }, mark);
            let read = message::read(&bytes, mark).expect("a good message");
            assert_eq!(message::to_bytes(&read, mark), bytes);
            assert_eq!(message::read(&bytes, !mark), Err(Refusal::Foreign));
        }
    }
}

#[test]
fn a_written_message_leaves_the_rest_of_the_buffer() {
    let edit = Edit { operation: Operation::Trim, curve: 3, x: 1.0, y: 2.0 };
    let message = Message { number: 1, edit };
    let mut out = [0xaa; 40];
    assert_eq!(message::write(&message, 5, &mut out), Ok(38));
    assert_eq!(out[..38], message::to_bytes(&message, 5));
    assert_eq!(out[38..], [0xaa; 2]);
    let mut short = [0xaa; 37];
    assert_eq!(message::write(&message, 5, &mut short), Err(Refusal::Buffer));
    assert_eq!(short, [0xaa; 37]);
}

#[test]
fn recorded_lists_are_the_same_each_time_and_hold_every_outcome() {
    let (images, messages) = (recording::images(SEED), recording::messages(SEED));
    assert_eq!(images.bytes(), recording::images(SEED).bytes());
    assert!(images.bytes().len() < 500_000);
    for outcome in 0..=5 {
        assert!(images.outcomes().contains(&outcome), "no image with outcome {outcome}");
    }
    for outcome in [0, 1, 2, 6, 28] {
        assert!(messages.outcomes().contains(&outcome), "no message with outcome {outcome}");
    }
    let largest = (image::MAX_SIZE as u32).to_be_bytes();
    let accepted_largest = [0, largest[0], largest[1], largest[2], largest[3]];
    assert!(images.bytes().windows(5).any(|window| window == accepted_largest));
}

#[test]
fn recorded_messages_have_every_size_and_each_bit_of_the_mark_another() {
    let messages = recording::messages(SEED);
    let (mut sizes, mut bits) = (BTreeSet::new(), BTreeSet::new());
    for (outcome, entry) in messages.entries() {
        let (mark, bytes) = entry.split_at(MARK_SIZE);
        sizes.insert(bytes.len());
        if outcome == 28 {
            bits.insert(u64_at(mark, 0) ^ u64_at(bytes, MARK_AT));
        }
    }
    assert!((0..=SIZE + 2).all(|size| sizes.contains(&size)), "{sizes:?}");
    assert!((0..Mark::BITS).all(|bit| bits.contains(&(1 << bit))), "{bits:x?}");
}
