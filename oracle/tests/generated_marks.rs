//! What the generators make of marks: every difference from the own one, every byte of it, every order of
//! tests, and inputs of the program that end at every place about it.
#![cfg(upstream)]

use oracle::bytes::{u32_at, u64_at};
use oracle::edit::Refused;
use oracle::generate::marks::{foreign, mark, Difference};
use oracle::generate::messages::{damage, delivery, message};
use oracle::generate::{random::Random, runs};
use oracle::image::LENGTH_SIZE;
use oracle::message::*;
use oracle::program::{run_watched, Parts};
use oracle::refusal::Refusal;
use oracle::replication::Delivery;
use std::collections::BTreeMap;

/// How often each thing came up.
type Counts<T> = BTreeMap<T, usize>;

fn count<T: Ord>(counts: &mut Counts<T>, thing: T) {
    *counts.entry(thing).or_default() += 1;
}

#[test]
fn a_foreign_mark_differs_in_every_way() {
    let mut random = Random::new(51);
    let (mut all, mut bytes) = (Counts::new(), Counts::new());
    for _ in 0..20_000 {
        let own = mark(&mut random);
        let other = foreign(&mut random, own);
        assert_ne!(own, other);
        let difference = Difference::between(own, other);
        count(&mut all, difference);
        if difference == Difference::OneByte {
            count(&mut bytes, (own ^ other).leading_zeros() / 8);
        }
    }
    for difference in Difference::NEAR.into_iter().chain([Difference::Far]) {
        assert!(all[&difference] > 1_000, "{difference:?}: {all:?}");
    }
    assert!(bytes.len() == MARK_SIZE && bytes.values().all(|count| *count > 200), "{bytes:?}");
}

#[test]
fn damage_reaches_every_byte_of_a_message() {
    let mut random = Random::new(52);
    let mut altered = [0; SIZE];
    for _ in 0..20_000 {
        let good = to_bytes(&message(&mut random), mark(&mut random));
        let mut bytes = good.to_vec();
        damage(&mut random, &mut bytes);
        for (count, pair) in altered.iter_mut().zip(good.iter().zip(&bytes)) {
            *count += usize::from(pair.0 != pair.1);
        }
    }
    assert!(altered.iter().all(|count| *count > 50), "{altered:?}");
}

/// The faults of a delivered message, by the refusals that they would give alone.
fn faults(own: Mark, bytes: &[u8]) -> Vec<u8> {
    let mut faults = Vec::new();
    if bytes[VERSION_AT] != VERSION {
        faults.push(2);
    }
    if bytes.len() != SIZE || u32_at(bytes, 0) != LENGTH {
        faults.push(1);
    }
    if u64_at(bytes, MARK_AT) != own {
        faults.push(28);
    }
    let is_operation = (1..=3).contains(&bytes[OPERATION_AT]);
    if u32_at(bytes, NUMBER_AT) == 0 || !is_operation {
        faults.push(6);
    }
    faults
}

#[test]
fn a_foreign_message_has_every_other_fault_too() {
    let mut random = Random::new(53);
    let mut sets = Counts::new();
    for _ in 0..50_000 {
        let (own, bytes) = delivery(&mut random);
        if bytes.len() > OPERATION_AT {
            count(&mut sets, faults(own, &bytes));
        }
    }
    for set in [&[][..], &[2], &[1], &[28], &[6], &[2, 28], &[1, 28], &[28, 6], &[2, 1, 28]] {
        assert!(sets.get(set).is_some_and(|count| *count > 50), "{set:?}: {sets:?}");
    }
}

#[test]
fn a_run_has_foreign_messages_under_old_next_and_later_numbers() {
    let mut random = Random::new(54);
    let mut numbers = Counts::new();
    for _ in 0..3_000 {
        let mut next = 1;
        run_watched(&runs::Run::any(&mut random).input(), |bytes, delivered| match delivered {
            Ok(Delivery::Applied(_)) => next += 1,
            Err(Refused { refusal: Refusal::Foreign, .. }) => {
                count(&mut numbers, u32_at(bytes, NUMBER_AT).cmp(&next))
            }
            _ => {}
        });
    }
    assert!(numbers.len() == 3 && numbers.values().all(|count| *count > 200), "{numbers:?}");
}

#[test]
fn inputs_end_at_every_place_about_the_mark() {
    let mut random = Random::new(55);
    let (mut ends, mut marks) = (Counts::new(), Counts::new());
    for _ in 0..20_000 {
        let input = runs::input(&mut random);
        let Parts { image, mark, messages, .. } = Parts::of(&input);
        let is_whole =
            image.len() > LENGTH_SIZE && u32_at(image, 0) as usize == image.len() - LENGTH_SIZE;
        match (is_whole, messages.len()) {
            (false, _) => count(&mut ends, None),
            (true, 0..=SIZE) => count(&mut ends, Some(mark.len() + messages.len())),
            _ => {}
        }
        if mark.len() == MARK_SIZE {
            count(&mut marks, u64_at(mark, 0) == 0);
        }
    }
    let missing = (0..=MARK_SIZE + SIZE).find(|end| !ends.contains_key(&Some(*end)));
    assert_eq!((missing, ends.contains_key(&None)), (None, true), "{ends:?}");
    assert!(marks[&true] > 1_000 && marks[&false] > 10_000, "{marks:?}");
}
