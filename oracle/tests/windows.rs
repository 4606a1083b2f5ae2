//! The desk's window: the plain words and the reading for any bytes, which agree along a
//! desk's run; what makes a slot hold a message; what the generator makes of windows.

use oracle::bytes::put;
use oracle::generate::catch_ups::{self, CatchUp};
use oracle::generate::random::Random;
use oracle::generate::windows::{numbered, Asked, Field, Making};
use oracle::kept_messages::KeptMessages;
use oracle::message::*;
use oracle::refusal::{number_of, Refusal};
use oracle::window::{self, catch_up, is_held, slot, slot_at, Window};
use std::collections::{BTreeMap, BTreeSet};

const MARK: Mark = 0x0123_4567_89ab_cdef;

/// A window after a run that ends with this number, and its messages in rising order.
fn run_to(last: u32, length: u32) -> (Window, Vec<[u8; SIZE]>) {
    let (mut random, mut window) = (Random::new(u64::from(last)), Window::empty());
    let numbers = (last - length..last).map(|before| before + 1);
    let messages: Vec<_> = numbers.map(|n| (n, numbered(&mut random, n, MARK))).collect();
    messages.iter().for_each(|(number, message)| window.slide(*number, message));
    (window, messages.into_iter().map(|(_, message)| message).collect())
}

/// What a desk at a count answers, and the buffer of so many bytes afterwards.
fn answer(
    window: &[u8],
    count: u32,
    wall_count: u32,
    room: usize,
) -> (Result<usize, Refusal>, Vec<u8>) {
    let mut out = vec![0xaa; room];
    (catch_up(window, count, MARK, wall_count, &mut out), out)
}

#[test]
fn both_readings_agree_along_a_desks_run() {
    let mut random = Random::new(71);
    for _ in 0..300 {
        let first = catch_ups::count(&mut random);
        let (mut window, mut kept) = (Window::empty(), KeptMessages::none(first));
        for number in first..first.saturating_add(200) {
            for _ in 0..10 {
                let wall_count = catch_ups::wall_count(&mut random, number);
                let room = catch_ups::room(&mut random, number.saturating_sub(wall_count));
                let mut out = vec![0xaa; room];
                let asked = kept.catch_up(wall_count, &mut out);
                assert_eq!((asked, out), answer(&window.bytes, number, wall_count, room));
            }
            let message = numbered(&mut random, number + 1, MARK);
            window.slide(number + 1, &message);
            kept.slide(&message);
        }
    }
}

#[test]
fn a_message_stands_in_the_slot_of_its_number() {
    assert_eq!((window::SIZE, slot_at(1), slot_at(63), slot_at(64)), (2432, 38, 2394, 0));
    assert_eq!(slot_at(u32::MAX), 2394);
    let (mut window, messages) = run_to(130, 64);
    assert_eq!(slot(&window.bytes, 130), Some(&messages[63][..]));
    let before = window.clone();
    let message = numbered(&mut Random::new(1), 131, MARK);
    window.slide(131, &message);
    assert_eq!(slot(&window.bytes, 67), Some(&message[..]));
    window.slide(67, &messages[0]);
    assert_eq!(window, before);
}

#[test]
fn a_wall_is_sent_what_it_lacks_and_nothing_beyond_is_touched() {
    for last in [64, 65, 127, 128, 129, 200, u32::MAX] {
        let (window, messages) = run_to(last, 64);
        for due in 0..=64 {
            let size = due * SIZE;
            let sent = messages[64 - due..].concat();
            for room in [size, size + 1, size + SIZE] {
                let (asked, out) = answer(&window.bytes, last, last - due as u32, room);
                assert_eq!((asked, &out[..size]), (Ok(due), &sent[..]));
                assert!(out[size..].iter().all(|byte| *byte == 0xaa));
            }
        }
    }
}

#[test]
fn refusal_26_from_65_due_on_and_without_the_window() {
    for last in [66, 128, 200, u32::MAX] {
        let (window, _) = run_to(last, 65);
        for due in [65, 66, last] {
            let refused = (Err(Refusal::LeftWindow), vec![0xaa; 100]);
            assert_eq!(answer(&window.bytes, last, last - due, 100), refused);
        }
        let (empty, none_due) = (Window::empty(), (Ok(0), vec![]));
        assert_eq!(answer(&empty.bytes, last, last - 1, 38).0, Err(Refusal::LeftWindow));
        assert_eq!(answer(&empty.bytes, last, last, 0), none_due);
    }
}

#[test]
fn refusal_27_above_the_desk() {
    let (window, _) = run_to(100, 64);
    for wall_count in [101, 102, 164, 165, u32::MAX] {
        for room in [0, 38, 2432] {
            let refused = (Err(Refusal::CountAbove), vec![0xaa; room]);
            assert_eq!(answer(&window.bytes, 100, wall_count, room), refused);
            assert_eq!(answer(&[], 100, wall_count, room), refused);
        }
    }
    assert_eq!(answer(&[], u32::MAX, u32::MAX, 0).0, Ok(0));
    assert_eq!(answer(&[], 0, 0, 0).0, Ok(0));
}

#[test]
fn refusal_25_comes_after_26_and_asks_for_what_is_due_alone() {
    let (mut window, _) = run_to(100, 64);
    for due in 1..=64 {
        let short = due as usize * SIZE - 1;
        let refused = (Err(Refusal::Buffer), vec![0xaa; short]);
        assert_eq!(answer(&window.bytes, 100, 100 - due, short), refused);
    }
    assert_eq!(answer(&window.bytes, 100, 35, 0).0, Err(Refusal::LeftWindow));
    window.slide(98, &[0; SIZE]);
    assert_eq!(answer(&window.bytes, 100, 98, 0).0, Err(Refusal::Buffer));
    assert_eq!(answer(&window.bytes, 100, 97, 0).0, Err(Refusal::LeftWindow));
    assert_eq!(answer(&window.bytes, 100, 97, 2432), (Err(Refusal::LeftWindow), vec![0xaa; 2432]));
}

/// The message of number 70 with one fault, each of which another refusal of a message is for.
#[test]
fn a_slot_holds_what_is_read_under_the_mark_and_bears_the_number() {
    let (good, _) = run_to(70, 64);
    assert!(is_held(&good.bytes, MARK, 70));
    assert!(!is_held(&good.bytes, MARK, 6) && !is_held(&good.bytes, MARK, 134));
    assert!(!is_held(&good.bytes, MARK ^ 1, 70) && !is_held(&good.bytes, MARK ^ 1 << 63, 70));
    let at = slot_at(70);
    for field in Field::ALL {
        let (from, to) = field.place();
        for bit in 0..8 * (to - from) {
            let mut bytes = good.bytes;
            bytes[at + from + bit / 8] ^= 1 << (bit % 8);
            let may_differ = matches!(field, Field::Curve | Field::X | Field::Y);
            let is_operation =
                field == Field::Operation && (1..=3).contains(&bytes[at + OPERATION_AT]);
            assert_eq!(is_held(&bytes, MARK, 70), may_differ || is_operation, "{field:?} {bit}");
        }
    }
    let mut bytes = good.bytes;
    put(&mut bytes, at + NUMBER_AT, 0u32.to_be_bytes());
    assert!(!is_held(&bytes, MARK, 70));
}

#[test]
fn a_window_of_any_size_holds_the_slots_that_it_has_whole() {
    let (window, messages) = run_to(64, 64);
    let longer = [&window.bytes[..], &messages[0]].concat();
    for size in 0..=longer.len() {
        for number in [1, 2, 63, 64] {
            let is_whole = size >= slot_at(number) + SIZE;
            assert_eq!(is_held(&longer[..size], MARK, number), is_whole);
        }
    }
}

#[test]
fn generated_windows_have_every_outcome() {
    let mut random = Random::new(72);
    let mut seen: BTreeMap<Making, BTreeSet<u8>> = BTreeMap::new();
    for _ in 0..20_000 {
        let CatchUp { making, asked, window, mut before } = CatchUp::any(&mut random);
        let Asked { mark, count, wall_count } = asked;
        let outcome = number_of(&catch_up(&window, count, mark, wall_count, &mut before));
        seen.entry(making).or_default().insert(outcome);
    }
    for making in Making::all() {
        // From these nothing is sent, so that room is not asked for.
        let never_sent =
            [Making::Empty, Making::OtherDesk, Making::Shifted, Making::Random].contains(&making);
        let outcomes = if never_sent { vec![0, 26, 27] } else { vec![0, 25, 26, 27] };
        assert_eq!(seen[&making], BTreeSet::from_iter(outcomes), "{making:?}");
    }
}
