//! The worked examples, run through the upstream code.
#![cfg(upstream)]

use oracle::drawing::{CurveKind, Drawing, Id, Relation};
use oracle::edit::{apply, Report};
use oracle::examples::{l, line, point, t};
use oracle::image;
use oracle::message::{Edit, Operation};
use oracle::refusal::Refusal;
use oracle::roots::{roots, Search, BUFFER};

fn edited(drawing: &Drawing, operation: Operation, curve: Id, x: f64, y: f64) -> (Drawing, Report) {
    apply(drawing, &Edit { operation, curve, x, y }).expect("the edit is accepted")
}

fn refused(drawing: &Drawing, operation: Operation, curve: Id, x: f64, y: f64) -> Refusal {
    apply(drawing, &Edit { operation, curve, x, y }).expect_err("the edit is refused").refusal
}

/// The drawing `t`, its first line half as long and the upright at x = 5.
fn gap() -> Drawing {
    let mut drawing = t();
    drawing.points[1].x = 2.0;
    drawing.points[2].x = 5.0;
    drawing.points[3].x = 5.0;
    drawing
}

#[test]
fn the_empty_image() {
    let bytes = [0, 0, 0, 0x0b, 1, 0, 0, 0, 1, 0, 0, 0, 0, 0, 0];
    assert_eq!(image::read(&bytes), Ok(Drawing::empty()));
    assert_eq!(image::to_bytes(&Drawing::empty()), bytes);
    let mut newer = bytes;
    newer[4] = 2;
    assert_eq!(image::read(&newer), Err(Refusal::Version));
}

#[test]
fn l_is_split() {
    let (after, report) = edited(&l(), Operation::Split, 3, 1.0, 3.0);
    assert_eq!(after.points, [point(1, 0.0, 0.0), point(2, 4.0, 0.0), point(4, 1.0, 0.0)]);
    assert_eq!(after.curves, [line(3, 1, 4), line(5, 4, 2)]);
    assert_eq!(after.relations, [Relation::Collinear { a: 3, b: 5 }]);
    assert_eq!((after.next_id, report), (6, Report::default()));
    assert_eq!(refused(&l(), Operation::Split, 3, 0.0, 3.0), Refusal::NoPlace);
}

#[test]
fn a_length_becomes_a_distance() {
    let mut drawing = l();
    drawing.relations.push(Relation::Length { line: 3, value: 4.0 });
    let (after, _) = edited(&drawing, Operation::Split, 3, 1.0, 3.0);
    let distance = Relation::Distance { p: 1, q: 2, value: 4.0 };
    assert_eq!(after.relations, [distance, Relation::Collinear { a: 3, b: 5 }]);
}

#[test]
fn t_is_trimmed_on_either_side() {
    let (after, report) = edited(&t(), Operation::Trim, 3, 0.5, 0.0);
    assert_eq!(after.curves, [line(3, 7, 2), line(6, 4, 5)]);
    assert_eq!(after.relations, [Relation::PointOnCurve { p: 7, c: 6 }]);
    assert_eq!(report, Report { removed: 8, ends: [1, 7] });
    assert!(after.point(1).is_none());
    assert_eq!(after.point(7), Some(&point(7, 1.0, 0.0)));

    let (after, report) = edited(&t(), Operation::Trim, 3, 3.0, 0.0);
    assert_eq!(after.curves, [line(3, 1, 7), line(6, 4, 5)]);
    assert_eq!(report, Report { removed: 8, ends: [7, 2] });
}

#[test]
fn l_is_trimmed_away() {
    let (after, report) = edited(&l(), Operation::Trim, 3, 2.0, 0.0);
    assert_eq!(after, Drawing { next_id: 4, ..Drawing::empty() });
    assert_eq!(report, Report { removed: 3, ends: [1, 2] });
}

/// The roots found, or the refusal, and the budget left.
fn search(coefficients: &[f64], budget: usize) -> (Result<Vec<f64>, Refusal>, usize) {
    let mut out = [f64::NAN; BUFFER];
    let Search { found, budget } = roots(coefficients, budget, &mut out);
    (found.map(|count| out[..count].to_vec()), budget)
}

#[test]
fn roots_by_bisection() {
    let near_half = 0.5 - 2.0_f64.powi(-47);
    assert_eq!(search(&[-1.0, 1.0], 100), (Ok(vec![near_half]), 53));
    assert_eq!(search(&[-1.0, 1.0], 47), (Ok(vec![near_half]), 0));
    assert_eq!(search(&[-1.0, 1.0], 46), (Err(Refusal::Work), 0));
    assert_eq!(search(&[0.0, 1.0], 100), (Ok(vec![0.0]), 100));
    assert_eq!(search(&[1.0, -1.0, 1.0], 100).0, Ok(vec![near_half]));
    assert_eq!(search(&[1.0; 16], 100), (Err(Refusal::Coefficients), 100));
    assert_eq!(search(&[5.0], 100), (Ok(vec![]), 100));
}

#[test]
fn a_line_is_extended() {
    let (after, report) = edited(&gap(), Operation::Extend, 3, 2.0, 0.0);
    assert_eq!(after.point(2), Some(&point(2, 5.0, 0.0)));
    assert_eq!(after.relations, [Relation::PointOnCurve { p: 2, c: 6 }]);
    assert_eq!((after.next_id, report), (7, Report::default()));
    assert_eq!(refused(&gap(), Operation::Extend, 3, 0.0, 0.0), Refusal::NothingMet);
}

#[test]
fn two_curves_stop_an_extension_at_once() {
    let mut drawing = gap();
    drawing.next_id = 10;
    drawing.points.extend([point(7, 4.0, -1.0), point(8, 6.0, 1.0)]);
    drawing.curves.push(line(9, 7, 8));
    assert_eq!(refused(&drawing, Operation::Extend, 3, 2.0, 0.0), Refusal::Tie);
}

#[test]
fn a_circle_is_cut_into_a_ring() {
    let mut drawing = t();
    drawing.next_id = 9;
    drawing.points = vec![point(1, -9.0, 0.0), point(2, 9.0, 0.0), point(4, 0.0, 0.0)];
    drawing.curves =
        vec![line(3, 1, 2), oracle::examples::curve(6, CurveKind::Circle { c: 4, radius: 5.0 })];
    let (after, report) = edited(&drawing, Operation::Trim, 6, 0.0, 5.0);
    assert_eq!(after.points[3..], [point(9, 5.0, 0.0), point(10, -5.0, 0.0)]);
    assert_eq!(after.curves[1].kind, CurveKind::Arc { c: 4, a: 10, b: 9 });
    assert_eq!(report, Report { removed: 11, ends: [9, 10] });
    let pins = [9, 10].map(|p| Relation::PointOnCurve { p, c: 3 });
    assert_eq!(after.relations, pins);
}
