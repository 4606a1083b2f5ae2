//! The recorded list of edits: the same each time, every outcome, entries that fill the list.
#![cfg(upstream)]

use oracle::bytes::{f64_at, u32_at};
use oracle::call::Call;
use oracle::recording::{self, SEED};
use oracle::unmet::Unmet;
use std::collections::BTreeSet;

/// Trim, split, extend.
const OPERATIONS: [u32; 3] = [1, 2, 3];
/// No such curve, line, arc, circle, Bézier, conic, infinite line.
const KINDS: [u8; 7] = [0, 1, 2, 3, 4, 5, 11];

#[test]
fn the_recorded_edits_are_the_same_each_time_and_hold_every_outcome() {
    let edits = recording::edits(SEED);
    assert_eq!(edits.bytes(), recording::edits(SEED).bytes());
    assert!(edits.bytes().len() < 600 << 10);
    // A message's 7 and the search's 20 and 21 are met by no edit.
    for outcome in (0..=6).chain(8..=19).chain(22..=25) {
        assert!(edits.outcomes().contains(&outcome), "no edit with outcome {outcome}");
    }
}

/// The outcomes that an operation can have on a kind of target, besides those of its image, of a
/// pick that is none and of a short buffer.
fn possible(operation: u32, kind: u8) -> &'static [u8] {
    match (operation, kind) {
        (_, 0) => &[8],
        (1, 1) => &[0, 11, 22, 23],
        (1, 2) => &[0, 10, 11, 22, 23, 24],
        (1, 3) => &[0, 11, 22, 23, 24],
        (2, 1 | 11) => &[0, 12, 22, 23],
        (2, 2) => &[0, 10, 12, 22, 23, 24],
        (2, 3) => &[0, 11, 12, 22, 23, 24],
        (3, 1 | 11) => &[0, 13, 14, 15, 16, 17, 18, 19, 22, 24],
        _ => &[10],
    }
}

#[test]
fn each_operation_on_each_kind_of_target_has_every_outcome() {
    let coverage = recording::edit_coverage(&recording::edits(SEED));
    for kind in KINDS {
        assert!(coverage[&(0, kind)].contains_key(&6), "no unknown operation on kind {kind}");
        for operation in OPERATIONS {
            for outcome in possible(operation, kind).iter().chain(&[9]) {
                let recorded = coverage[&(operation, kind)].contains_key(outcome);
                assert!(recorded, "operation {operation}, kind {kind}: no {outcome}");
            }
        }
    }
}

#[test]
fn an_entry_holds_the_place_of_the_first_relation_not_met() {
    let edits = recording::edits(SEED);
    let mut seen = BTreeSet::new();
    for (outcome, input) in edits.entries() {
        let image = input[38..38 + u32_at(input, 30) as usize].to_vec();
        let (operation, curve) = (u32_at(input, 2), u32_at(input, 6));
        let call = Call { operation, image, curve, x: f64_at(input, 10), y: f64_at(input, 18) };
        let place = usize::from(input[0]) * 256 + usize::from(input[1]);
        let unmet = Unmet::of_call(&call);
        assert_eq!(unmet.is_some(), [13, 19].contains(&outcome));
        assert_eq!(place, unmet.as_ref().map_or(0, |unmet| unmet.places[0]));
        seen.extend(unmet.iter().flat_map(Unmet::names).map(|name| (outcome, name)));
    }
    let before = ["place 0", "later place", "several"].map(|name| (13, name));
    let after =
        ["place 0", "later place", "pin's own", "several", "pin too"].map(|name| (19, name));
    assert_eq!(seen, before.into_iter().chain(after).collect());
}

#[test]
fn an_entry_is_as_long_as_its_sizes_say() {
    let edits = recording::edits(SEED);
    let mut rest = edits.bytes();
    for outcome in edits.outcomes() {
        assert_eq!(rest[0], *outcome);
        let (input, behind) = rest[5..].split_at(u32_at(rest, 1) as usize);
        let (room, before, written) = (u32_at(input, 26), u32_at(input, 30), u32_at(input, 34));
        assert_eq!(input.len(), (38 + before + written) as usize);
        assert_eq!(*outcome == 0, written > 0);
        assert!(written <= room);
        rest = behind;
    }
    assert!(rest.is_empty());
}
