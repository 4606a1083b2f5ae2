//! Refusals 20 to 25, which the caller's memory and numbers meet.
#![cfg(upstream)]

mod common;

use common::{l_with, refused, EXTEND, SPLIT, TRIM};
use oracle::drawing::*;
use oracle::edit::apply;
use oracle::examples::{curve, l, line, point, t};
use oracle::image;
use oracle::message::{self, Edit};
use oracle::refusal::Refusal;
use oracle::replication::Desk;
use oracle::roots::{roots, Search, BUFFER};

/// A search with a full budget and buffer.
fn search(coefficients: &[f64], budget: usize) -> Search {
    roots(coefficients, budget, &mut [0.0; BUFFER])
}

#[test]
fn refusal_20_coefficients() {
    let refused = Search { found: Err(Refusal::Coefficients), budget: 7 };
    assert_eq!(search(&[], 7), refused);
    assert_eq!(search(&[1.0; 16], 7), refused);
    assert_eq!(search(&[1.0, f64::NAN], 7), refused);
    // The difference of these two is not finite.
    assert_eq!(search(&[f64::MAX, f64::MIN], 7), refused);
    assert_eq!(search(&[1.0; 15], 7), Search { found: Ok(0), budget: 7 });
}

#[test]
fn refusal_21_work() {
    assert_eq!(search(&[-1.0, 1.0], 46), Search { found: Err(Refusal::Work), budget: 0 });
}

#[test]
fn refusal_22_table_full() {
    let mut drawing = t();
    drawing.relations = vec![Relation::Coincident { p: 1, q: 2 }; MAX_RELATIONS];
    assert_eq!(refused(&drawing, SPLIT, 3, 2.0, 0.0), 22);
    assert_eq!(refused(&drawing, TRIM, 3, 2.0, 0.0), 22);
    let mut points = l();
    points.points.extend((10..520).map(|id| point(id, 0.0, 9.0)));
    points.next_id = 520;
    assert_eq!(refused(&points, SPLIT, 3, 2.0, 0.0), 22);
    let mut curves = l();
    curves.curves.extend((10..137).map(|id| line(id, 1, 2)));
    curves.next_id = 137;
    assert_eq!(refused(&curves, SPLIT, 3, 2.0, 0.0), 22);
}

#[test]
fn refusal_23_numbers() {
    let mut drawing = l();
    for left in 0..2 {
        drawing.next_id = Id::MAX - left;
        assert_eq!(refused(&drawing, SPLIT, 3, 2.0, 0.0), 23);
    }
    drawing.next_id = Id::MAX - 2;
    assert!(apply(&drawing, &Edit { operation: SPLIT, curve: 3, x: 2.0, y: 0.0 }).is_ok());
    // The edit number, before anything of the edit itself.
    let mut desk = Desk::new(l(), 0);
    desk.replica.count = u32::MAX;
    let edit = Edit { operation: SPLIT, curve: 99, x: f64::NAN, y: 0.0 };
    assert_eq!(desk.edit(&edit, &mut [0; message::SIZE]), Err(Refusal::Numbers.into()));
}

#[test]
fn refusal_24_coordinate() {
    let mut far = l_with(&[point(4, 999_999.0, 1.0), point(5, 1e6, 0.4)], &[line(6, 4, 5)]);
    far.curves[1].infinite = true;
    assert_eq!(refused(&far, EXTEND, 3, 4.0, 0.0), 24);
    // It comes before a full table.
    far.relations = vec![Relation::Length { line: 3, value: 4.0 }; MAX_RELATIONS];
    assert_eq!(refused(&far, EXTEND, 3, 4.0, 0.0), 24);
    let wheel = curve(6, CurveKind::Circle { c: 4, radius: 1e6 });
    let mut large = l_with(&[point(4, 1e6, 1.0), point(5, 1e6, 9.0)], &[wheel, line(7, 4, 5)]);
    large.curves[2].infinite = true;
    assert_eq!(refused(&large, SPLIT, 6, 1e6, 0.0), 24);
}

#[test]
fn refusal_25_buffer() {
    let mut desk = Desk::new(l(), 0);
    let edit = Edit { operation: SPLIT, curve: 3, x: 2.0, y: 0.0 };
    assert_eq!(desk.edit(&edit, &mut [0; 37]), Err(Refusal::Buffer.into()));
    let size = image::size(&l());
    assert_eq!(image::write(&l(), &mut vec![0; size - 1]), Err(Refusal::Buffer));
    assert_eq!(image::write(&l(), &mut vec![0; size]), Ok(size));
    // Before 20, and without touching the budget.
    let short = Search { found: Err(Refusal::Buffer), budget: 5 };
    assert_eq!(roots(&[], 5, &mut [0.0; BUFFER - 1]), short);
    // A drawing that no image gives comes before the buffer.
    let mut bad = l();
    bad.next_id = 0;
    assert_eq!(image::write(&bad, &mut []), Err(Refusal::Value));
}
