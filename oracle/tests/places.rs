//! The place that comes with a refusal: with 13 and 19 that of the first relation not met, counted
//! from 0, with 19 in the table that the edit would have left; none with any other number.
#![cfg(upstream)]

use oracle::drawing::*;
use oracle::edit::{apply, Refused};
use oracle::examples::{curve, l, line, point};
use oracle::generate::{calls, random::Random};
use oracle::image;
use oracle::message::{self, Edit, Mark, Message, Operation, MARK_AT, OPERATION_AT, VERSION_AT};
use oracle::refusal::Refusal;
use oracle::replication::Desk;
use oracle::steps::State;
use oracle::unmet::Unmet;
use std::collections::BTreeMap;

/// Line 3 from (0, 0) to (4, 0), point 1 to 2, and line 6 between two further points, 4 and 5.
fn l_and(from: Point, to: Point, relations: &[Relation]) -> Drawing {
    let mut drawing = Drawing { next_id: 20, relations: relations.to_vec(), ..l() };
    drawing.points.extend([from, to]);
    drawing.curves.push(line(6, 4, 5));
    drawing
}

/// Line 6 is upright at x = 9, from y = −1 to a height. The extend below moves point 2 to (9, 0).
fn upright(height: f64, relations: &[Relation]) -> Drawing {
    l_and(point(4, 9.0, -1.0), point(5, 9.0, height), relations)
}

const MARK: Mark = 7;
const BY_END: Edit = Edit { operation: Operation::Extend, curve: 3, x: 4.0, y: 0.0 };

fn length(line: Id, value: f64) -> Relation {
    Relation::Length { line, value }
}

fn distance(p: Id, q: Id, value: f64) -> Relation {
    Relation::Distance { p, q, value }
}

/// The edit, the desk and the wall all refuse by one number with one place, and alter nothing.
fn assert_refused(drawing: &Drawing, edit: Edit, refusal: Refusal, place: Option<usize>) {
    let refused = Refused { refusal, place };
    assert_eq!(apply(drawing, &edit), Err(refused), "{edit:?} of {drawing:?}");
    let start = Desk::new(drawing.clone(), MARK);
    let (mut desk, mut wall) = (start.clone(), start.replica.clone());
    let message = message::to_bytes(&Message { number: 1, edit }, MARK);
    assert_eq!(desk.edit(&edit, &mut [0; message::SIZE]), Err(refused));
    assert_eq!(wall.deliver(&message), Err(refused));
    assert_eq!((&desk, &wall), (&start, &start.replica));
    let state = State { image: image::to_bytes(drawing), mark: MARK, count: 0 };
    let answer = u32::from(refusal.number()) + 65_536 * place.unwrap_or(0) as u32;
    assert_eq!(state.edit(&edit, &mut [0; message::SIZE]).answer, answer);
    assert_eq!(state.deliver(&message).answer, answer);
}

#[test]
fn place_13_is_the_first_unmet_of_all_relations() {
    // Not met: the upright is 2 high, the target 4 long, and its ends are apart.
    let (upright_3, target_5) = (distance(4, 5, 3.0), length(3, 5.0));
    let apart = Relation::Coincident { p: 1, q: 2 };
    let met = [length(6, 2.0), length(3, 4.0)];
    let tables: [(&[Relation], usize); 6] = [
        (&[upright_3, target_5, apart], 0),
        (&[met[0], upright_3, target_5, apart], 1),
        (&[met[1], met[0], upright_3, met[0], target_5], 2),
        (&[met[0], met[1], target_5, upright_3], 2),
        (&[met[0], met[0], met[1], apart], 3),
        (&[apart], 0),
    ];
    for (relations, place) in tables {
        assert_refused(&upright(1.0, relations), BY_END, Refusal::Unmet, Some(place));
    }
}

#[test]
fn place_13_comes_before_all_that_the_extend_would_meet() {
    // Nothing lies beyond the other end, and the end to move is fixed; 13 is tested first.
    let mut drawing = upright(1.0, &[length(6, 2.0), length(6, 3.0)]);
    let by_start = Edit { x: 0.0, ..BY_END };
    assert_refused(&drawing, by_start, Refusal::Unmet, Some(1));
    drawing.points[1].fixed = true;
    assert_refused(&drawing, BY_END, Refusal::Unmet, Some(1));
}

#[test]
fn place_19_is_the_first_that_the_edit_would_leave_unmet() {
    // Met as long as point 2 is at (4, 0): the first names the line alone, the others the point.
    let line_4 = length(3, 4.0);
    let ends_4 = distance(1, 2, 4.0);
    let by_2 = Relation::Coincident { p: 7, q: 2 };
    let met = [length(6, 2.0), distance(4, 5, 2.0)];
    let tables: [(&[Relation], usize); 6] = [
        (&[line_4], 0),
        (&[line_4, ends_4, by_2], 0),
        (&[met[0], met[1], ends_4, line_4], 2),
        (&[met[0], line_4, met[1], by_2], 1),
        (&[met[1], met[0], met[1], by_2, ends_4, met[0]], 3),
        (&[met[1], met[0], met[1], met[0], line_4], 4),
    ];
    for (relations, place) in tables {
        let mut drawing = upright(1.0, relations);
        drawing.points.push(point(7, 4.0, 0.0));
        assert_refused(&drawing, BY_END, Refusal::Conflict, Some(place));
    }
}

#[test]
fn place_19_is_the_pins_own_behind_the_present_table() {
    // Within 1e-6 of the upright's end the pin is Coincident with it, which is met up to 1e-7.
    let height = 5e-7;
    // Met before and after the edit: point 4 is at (9, −1).
    let stays = distance(1, 4, 82.0_f64.sqrt());
    for present in 0..3 {
        let drawing = upright(height, &vec![stays; present]);
        assert_refused(&drawing, BY_END, Refusal::Conflict, Some(present));
    }
    let both = upright(height, &[stays, length(3, 4.0)]);
    assert_refused(&both, BY_END, Refusal::Conflict, Some(1));
    let unmet = Unmet::of(&both, &BY_END).expect("the edit is refused by 19");
    assert_eq!((unmet.places, unmet.present), (vec![1, 2], 2));
}

#[test]
fn a_pin_is_met_near_the_end_and_away_from_it() {
    for (height, pin) in
        [(5e-8, Relation::Coincident { p: 2, q: 5 }), (2e-6, Relation::PointOnCurve { p: 2, c: 6 })]
    {
        let (after, _) = apply(&upright(height, &[]), &BY_END).expect("the extend is accepted");
        assert_eq!(after.relations, [pin]);
    }
}

/// An edit for each other number: one that comes before 13 in a drawing with a relation not met, one
/// that comes between 13 and 19 in a drawing with one that the extend would break.
fn other_refusals() -> Vec<(Drawing, Edit, Refusal)> {
    let edit = |operation, curve, x| Edit { operation, curve, x, y: 0.0 };
    let unmet = [length(6, 2.0), length(6, 3.0)];
    let broken = [distance(1, 2, 4.0), length(3, 4.0)];
    let mut fixed = upright(1.0, &broken);
    fixed.points[1].fixed = true;
    let along = l_and(point(4, 8.0, 0.0), point(5, 10.0, 0.0), &broken);
    let mut far_out = l_and(point(4, 1e5, 1.0), point(5, 8e5, 0.5), &[length(3, 4.0)]);
    far_out.curves[1].infinite = true;
    let mut tied = upright(1.0, &broken);
    tied.points.extend([point(7, 8.0, -1.0), point(8, 10.0, 1.0)]);
    tied.curves.push(line(9, 7, 8));
    let arch = curve(7, CurveKind::Bezier { degree: 1, points: [4, 5, 0, 0, 0, 0, 0, 0] });
    let mut arched = upright(1.0, &unmet);
    arched.curves.push(arch);
    let mut speck = upright(1.0, &[length(6, 2.0)]);
    speck.points[1].x = 1e-13;
    speck.curves.push(arch);
    vec![
        (upright(1.0, &unmet), edit(Operation::Extend, 99, 4.0), Refusal::NoCurve),
        (upright(1.0, &unmet), edit(Operation::Extend, 3, f64::NAN), Refusal::Pick),
        (arched.clone(), edit(Operation::Extend, 7, 4.0), Refusal::Kind),
        (arched, edit(Operation::Trim, 3, 1.0), Refusal::Freeform),
        (upright(1.0, &unmet), edit(Operation::Split, 3, 0.0), Refusal::NoPlace),
        (fixed, BY_END, Refusal::EndHeld),
        (along, BY_END, Refusal::Overlap),
        (speck, BY_END, Refusal::Unresolved),
        (tied, BY_END, Refusal::Tie),
        (upright(1.0, &broken), edit(Operation::Extend, 3, 0.0), Refusal::NothingMet),
        (upright(1.0, &[broken[1]; MAX_RELATIONS]), BY_END, Refusal::TableFull),
        (far_out, BY_END, Refusal::Coordinate),
    ]
}

#[test]
fn no_other_refusal_of_an_edit_has_a_place() {
    for (drawing, edit, refusal) in other_refusals() {
        assert_refused(&drawing, edit, refusal, None);
    }
}

#[test]
fn no_refusal_of_memory_numbers_or_messages_has_a_place() {
    let unmet = upright(1.0, &[length(6, 2.0), length(6, 3.0)]);
    let refused = |refusal| Some(Refused { refusal, place: None });
    let mut desk = Desk::new(unmet, MARK);
    let mut wall = desk.replica.clone();
    assert_eq!(desk.edit(&BY_END, &mut [0; message::SIZE - 1]).err(), refused(Refusal::Buffer));
    desk.replica.count = u32::MAX;
    assert_eq!(desk.edit(&BY_END, &mut [0; message::SIZE]).err(), refused(Refusal::Numbers));
    let bytes = message::to_bytes(&Message { number: 2, edit: BY_END }, MARK);
    let with = |at: usize, value: u8| {
        let mut changed = bytes;
        changed[at] = value;
        changed
    };
    assert_eq!(wall.deliver(&bytes[..message::SIZE - 1]).err(), refused(Refusal::Length));
    assert_eq!(wall.deliver(&with(VERSION_AT, 9)).err(), refused(Refusal::Version));
    assert_eq!(wall.deliver(&with(MARK_AT, 9)).err(), refused(Refusal::Foreign));
    assert_eq!(wall.deliver(&with(OPERATION_AT, 0)).err(), refused(Refusal::Operation));
    assert_eq!(wall.deliver(&bytes).err(), refused(Refusal::Ahead));
}

#[test]
fn generated_extends_have_every_kind_of_place() {
    let mut random = Random::new(1);
    let mut counts: BTreeMap<(u8, &str), usize> = BTreeMap::new();
    for _ in 0..20_000 {
        let call = calls::extension(&mut random);
        let Some(unmet) = Unmet::of_call(&call) else { continue };
        assert_eq!(call.outcome().expect_err("refused").place, Some(unmet.places[0]));
        for name in unmet.names() {
            *counts.entry((unmet.refusal.number(), name)).or_default() += 1;
        }
    }
    for (number, names) in [
        (13, &["place 0", "later place", "several"][..]),
        (19, &["place 0", "later place", "pin's own", "several", "pin too"]),
    ] {
        for name in names {
            let count = counts.get(&(number, name)).copied().unwrap_or(0);
            assert!(count >= 20, "{number}, {name}: only {count}");
        }
    }
    assert_eq!(counts.get(&(13, "pin's own")), None);
}
