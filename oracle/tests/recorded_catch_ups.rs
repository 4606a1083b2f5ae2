//! The recorded list of catch-ups: the same each time and as it is stored, with every outcome and every
//! place at which one is decided.

use oracle::generate::windows::Asked;
use oracle::message::*;
use oracle::recording::{self, CatchUpEntry, MOST_ROOM, SEED};
use oracle::refusal::number_of;
use oracle::window::{self, catch_up, slot};
use std::collections::{BTreeMap, BTreeSet};

/// The mark of the entries that are not generated.
const MARK: Mark = 0x0123_4567_89ab_cdef;
/// What a lent buffer holds before.
const PATTERN: u8 = 0xa5;

#[test]
fn the_recorded_catch_ups_are_the_same_each_time_and_hold_every_outcome() {
    let list = recording::catch_ups(SEED);
    assert_eq!(list.bytes(), recording::catch_ups(SEED).bytes());
    assert!(list.bytes() == include_bytes!("../../crates/replay/data/catch_ups.bin"));
    assert!(list.bytes().len() < 300_000);
    let mut outcomes = BTreeMap::new();
    list.outcomes().iter().for_each(|outcome| *outcomes.entry(*outcome).or_insert(0) += 1);
    assert!(outcomes.keys().eq(&[0, 25, 26, 27]), "{outcomes:?}");
    assert!(outcomes.values().all(|count| *count > 20), "{outcomes:?}");
}

#[test]
fn an_entry_holds_a_call_and_what_it_writes() {
    for (outcome, input) in recording::catch_ups(SEED).entries() {
        let CatchUpEntry { asked, room, window, written } = CatchUpEntry::of(input);
        let Asked { mark, count, wall_count } = asked;
        assert!(room <= MOST_ROOM);
        let mut out = vec![PATTERN; room];
        let answer = catch_up(window, count, mark, wall_count, &mut out);
        assert_eq!(number_of(&answer), outcome);
        let (front, rest) = out.split_at(answer.map_or(0, |messages| messages * SIZE));
        assert_eq!(front, written);
        assert!(rest.iter().all(|byte| *byte == PATTERN));
    }
}

#[test]
fn windows_of_every_size_are_asked_for_any_number_of_messages() {
    let (mut sent, mut sizes, mut turned) = (BTreeSet::new(), BTreeSet::new(), 0);
    for (outcome, input) in recording::catch_ups(SEED).entries() {
        let CatchUpEntry { asked, window, .. } = CatchUpEntry::of(input);
        sizes.insert(window.len());
        if outcome == 0 && asked.due() > 0 {
            sent.insert(asked.due());
            turned += usize::from(asked.count / 64 > (asked.wall_count + 1) / 64);
        }
    }
    assert!([1, 2, 3, 4, 5, 63, 64].iter().all(|due| sent.contains(due)), "{sent:?}");
    assert!((SIZE..=2 * SIZE).all(|size| sizes.contains(&size)), "{sizes:?}");
    assert!([0, window::SIZE, 2 * window::SIZE].iter().all(|size| sizes.contains(size)));
    assert!(turned > 5, "{turned} are sent from slot 63 on to slot 0");
}

#[test]
fn each_bit_that_decides_whether_a_message_is_held_is_another_in_one_entry() {
    let edit = Edit { operation: Operation::Trim, curve: 0, x: 0.0, y: 0.0 };
    let good = to_bytes(&Message { number: 64, edit }, MARK);
    let mut bits = BTreeSet::new();
    for (_, input) in recording::catch_ups(SEED).entries() {
        let CatchUpEntry { asked: Asked { mark, count, .. }, window, .. } = CatchUpEntry::of(input);
        if let (MARK, 64, Some(slot)) = (mark, count, slot(window, count)) {
            let changed = (0..OPERATION_AT).filter(|at| slot[*at] != good[*at]);
            bits.extend(changed.map(|at| (at, slot[at] ^ good[at])));
        }
    }
    for at in 0..OPERATION_AT {
        assert!((0..8).all(|bit| bits.contains(&(at, 1 << bit))), "byte {at}");
    }
}
