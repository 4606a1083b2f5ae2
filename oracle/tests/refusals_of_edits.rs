//! Refusals 8 to 19, which a person's edit meets.
#![cfg(upstream)]

mod common;

use common::{l_with, refused, EXTEND, SPLIT, TRIM};
use oracle::drawing::*;
use oracle::edit::{apply, Refused};
use oracle::examples::{curve, l, line, point, t};
use oracle::message::{Edit, Operation};
use oracle::refusal::Refusal;

/// `l` and an upright line at x, from −1 to 1.
fn l_before(x: f64) -> Drawing {
    l_with(&[point(4, x, -1.0), point(5, x, 1.0)], &[line(6, 4, 5)])
}

fn bezier(points: &[Id]) -> CurveKind {
    let mut slots = [0; SLOTS];
    slots[..points.len()].copy_from_slice(points);
    CurveKind::Bezier { degree: points.len() as u8 - 1, points: slots }
}

#[test]
fn refusal_08_no_curve() {
    assert_eq!(refused(&l(), TRIM, 1, 0.0, 0.0), 8);
}

#[test]
fn refusal_09_pick_comes_first() {
    for bad in [f64::NAN, f64::INFINITY, 1_000_000.1, -1_000_000.1] {
        assert_eq!(refused(&l(), TRIM, 99, bad, 0.0), 9);
        assert_eq!(refused(&l(), TRIM, 99, 0.0, bad), 9);
    }
    assert_eq!(refused(&l(), TRIM, 99, 1e6, -1e6), 8);
}

#[test]
fn refusal_10_kind() {
    let mut endless = l();
    endless.curves[0].infinite = true;
    assert_eq!(refused(&endless, TRIM, 3, 1.0, 0.0), 10);
    assert!(apply(&endless, &Edit { operation: SPLIT, curve: 3, x: 1.0, y: 0.0 }).is_ok());
    let arch = l_with(&[], &[curve(6, bezier(&[1, 2]))]);
    for operation in Operation::ALL {
        assert_eq!(refused(&arch, operation, 6, 1.0, 0.0), 10);
    }
    let full = curve(6, CurveKind::Arc { c: 1, a: 2, b: 4 });
    let full = l_with(&[point(4, 4.0, 0.0)], &[full]);
    for operation in Operation::ALL {
        assert_eq!(refused(&full, operation, 6, 1.0, 0.0), 10);
    }
    let wheel = l_with(&[], &[curve(6, CurveKind::Circle { c: 1, radius: 1.0 })]);
    assert_eq!(refused(&wheel, EXTEND, 6, 1.0, 0.0), 10);
}

#[test]
fn refusal_11_freeform_beside() {
    let wheel = curve(6, CurveKind::Circle { c: 1, radius: 1.0 });
    let drawing = l_with(&[], &[wheel, curve(7, bezier(&[1, 2]))]);
    assert_eq!(refused(&drawing, TRIM, 3, 1.0, 0.0), 11);
    assert_eq!(refused(&drawing, SPLIT, 6, 1.0, 0.0), 11);
    assert!(apply(&drawing, &Edit { operation: SPLIT, curve: 3, x: 1.0, y: 0.0 }).is_ok());
}

#[test]
fn refusal_12_no_place() {
    assert_eq!(refused(&l(), SPLIT, 3, 4e-9, 0.0), 12);
    assert!(apply(&l(), &Edit { operation: SPLIT, curve: 3, x: 4.1e-9, y: 0.0 }).is_ok());
    assert_eq!(refused(&l(), SPLIT, 3, 4.0, 0.0), 12);
    let touched = curve(6, CurveKind::Circle { c: 4, radius: 1.0 });
    let touched = l_with(&[point(4, 2.0, 1.0)], &[touched]);
    assert_eq!(refused(&touched, SPLIT, 6, 2.0, 2.0), 12);
}

#[test]
fn refusal_13_names_the_first_unmet_relation() {
    let mut drawing = l_before(9.0);
    drawing.relations.push(Relation::Length { line: 3, value: 4.0 });
    drawing.relations.push(Relation::Length { line: 3, value: 5.0 });
    drawing.relations.push(Relation::Coincident { p: 1, q: 2 });
    let edit = Edit { operation: EXTEND, curve: 3, x: 4.0, y: 0.0 };
    let unmet = Refused { refusal: Refusal::Unmet, place: Some(1) };
    assert_eq!(apply(&drawing, &edit), Err(unmet));
}

#[test]
fn refusal_14_end_held() {
    let mut fixed = l_before(9.0);
    fixed.points[1].fixed = true;
    assert_eq!(refused(&fixed, EXTEND, 3, 4.0, 0.0), 14);
    let shared = l_with(&[point(4, 4.0, 5.0)], &[line(6, 2, 4)]);
    assert_eq!(refused(&shared, EXTEND, 3, 4.0, 0.0), 14);
}

#[test]
fn refusal_15_overlap() {
    let along = l_with(&[point(4, 8.0, 0.0), point(5, 9.0, 0.0)], &[line(6, 4, 5)]);
    assert_eq!(refused(&along, EXTEND, 3, 4.0, 0.0), 15);
    let arch = curve(6, bezier(&[4, 5]));
    let along = l_with(&[point(4, 8.0, 0.0), point(5, 9.0, 0.0)], &[arch]);
    assert_eq!(refused(&along, EXTEND, 3, 4.0, 0.0), 15);
}

#[test]
fn refusal_16_no_direction_before_an_arch() {
    let arch = curve(6, bezier(&[4, 5]));
    let mut speck = l_with(&[point(4, 8.0, -1.0), point(5, 8.0, 1.0)], &[arch]);
    speck.points[1].x = 1e-13;
    assert_eq!(refused(&speck, EXTEND, 3, 0.0, 0.0), 16);
    speck.curves[1] = line(6, 4, 5);
    assert_eq!(refused(&speck, EXTEND, 3, 0.0, 0.0), 18);
}

#[test]
fn refusal_16_a_hit_off_the_support() {
    // The sharpest conic there is: the parameter's last bits move its points a long way.
    let rho = 1.0 - f64::EPSILON / 2.0;
    let arch = [point(4, 5.0, 1.0), point(5, 7.0, -3.0), point(6, 9.0, 1.0)];
    let conic = curve(7, CurveKind::Conic { a: 4, apex: 5, b: 6, rho });
    assert_eq!(refused(&l_with(&arch, &[conic]), EXTEND, 3, 4.0, 0.0), 16);
}

#[test]
fn refusal_17_tie() {
    let crossed =
        [point(4, 9.0, -1.0), point(5, 9.0, 1.0), point(7, 8.0, -1.0), point(8, 10.0, 1.0)];
    let drawing = l_with(&crossed, &[line(6, 4, 5), line(9, 7, 8)]);
    assert_eq!(refused(&drawing, EXTEND, 3, 4.0, 0.0), 17);
}

#[test]
fn refusal_18_nothing_met() {
    assert_eq!(refused(&l(), EXTEND, 3, 4.0, 0.0), 18);
    assert_eq!(refused(&t(), EXTEND, 3, 4.0, 0.0), 18);
}

#[test]
fn refusal_19_names_a_relation_of_the_drawing_it_would_leave() {
    let mut drawing = l_before(9.0);
    drawing.relations.push(Relation::Length { line: 6, value: 2.0 });
    drawing.relations.push(Relation::Length { line: 3, value: 4.0 });
    let edit = Edit { operation: EXTEND, curve: 3, x: 4.0, y: 0.0 };
    let conflict = Refused { refusal: Refusal::Conflict, place: Some(1) };
    assert_eq!(apply(&drawing, &edit), Err(conflict));
}
