//! Kinds of curves: which degree, number, slots and flags each may have.

use crate::document::{range, table, Row};
use mulkefi::{test, Drawing, Kind};

/// An image of eight points and one line, whose record is then written over.
fn with_curve(kind: u8, flags: u8, degree: u8, slots: usize, number: f64) -> Vec<u8> {
    let mut drawing = Drawing::new();
    let points: Vec<u32> = (0..8).map(|x| drawing.add_point(x.into(), 1.0)).collect();
    drawing.add_curve(Kind::Line { a: points[0], b: points[1] });
    let mut image = drawing.to_image();
    let at = image.len() - 47;
    image[at + 4..at + 7].copy_from_slice(&[kind, flags, degree]);
    for (slot, point) in points.iter().enumerate() {
        let id = if slot < slots { *point } else { 0 };
        image[at + 7 + 4 * slot..][..4].copy_from_slice(&id.to_be_bytes());
    }
    image[at + 39..].copy_from_slice(&number.to_be_bytes());
    image
}

/// How many slots a row says that a curve of this degree uses.
fn slots_in_use(row: &Row, degree: u8) -> usize {
    match row.cell("slots in use") {
        "its degree and one more" => usize::from(degree) + 1,
        cell => {
            let (count, names) = cell.split_once(": ").expect("a number of slots and their names");
            let count = count.parse().expect("a number of slots");
            assert_eq!(names.split(", ").count(), count, "{cell}");
            count
        }
    }
}

/// Whether a row allows a number; 5 is a radius and no rho, 0.5 is both.
fn allows_number(row: &Row, number: f64) -> bool {
    match row.cell("number") {
        "0" => number == 0.0,
        "radius" => number > 0.0,
        "rho" => number > 0.0 && number < 1.0,
        other => panic!("{other} is no number of a curve"),
    }
}

/// Whether a row allows this degree, so many slots, this number and these flags.
fn allows(row: &Row, degree: u8, slots: usize, number: f64, flags: u8) -> bool {
    let within = |column: &str, value: u8| {
        let (from, to) = range(row.cell(column)).expect("a range");
        (from..=to).contains(&value.into())
    };
    within("degree", degree)
        && within("flags", flags)
        && slots == slots_in_use(row, degree)
        && allows_number(row, number)
}

#[test]
fn each_kind_uses_what_its_row_says() {
    let of_each = |value: u32| ((value % 9) as u8, (value / 9 % 9) as usize, (value / 81) as u8);
    for row in table("Kinds of curves") {
        let kind = row.number("kind") as u8;
        let mut accepted = 0;
        for (degree, slots, flags) in (0..9 * 9 * 9).map(of_each) {
            for number in [0.0, 0.5, 5.0] {
                let expected = allows(&row, degree, slots, number, flags);
                let image = with_curve(kind, flags, degree, slots, number);
                let case = format!("{kind} {degree} {slots} {number} {flags}");
                assert_eq!(test(&image).is_ok(), expected, "{case}");
                accepted += usize::from(expected);
            }
        }
        assert!(accepted > 0, "{kind}");
    }
}

#[test]
fn kinds_have_their_numbers_and_names() {
    let kinds = [
        Kind::Line { a: 1, b: 2 },
        Kind::Arc { c: 1, a: 2, b: 3 },
        Kind::Circle { c: 1, radius: 1.0 },
        Kind::Bezier { points: vec![1, 2] },
        Kind::Conic { a: 1, apex: 2, b: 3, rho: 0.5 },
    ];
    let rows = table("Kinds of curves");
    assert_eq!(rows.len(), kinds.len());
    for (row, kind) in rows.iter().zip(kinds) {
        let mut drawing = Drawing::new();
        for x in 0..3 {
            drawing.add_point(x.into(), f64::from(x * x));
        }
        assert_eq!(row.cell("curve"), kind.name());
        drawing.add_curve(kind);
        let image = drawing.to_image();
        assert_eq!(test(&image), Ok(()));
        assert_eq!(usize::from(image[image.len() - 47 + 4]), row.number("kind"));
    }
}

#[test]
fn no_other_kind_is_read() {
    let last = table("Kinds of curves").len() as u8;
    for kind in (0..=u8::MAX).filter(|kind| !(1..=last).contains(kind)) {
        assert!(test(&with_curve(kind, 0, 0, 2, 0.0)).is_err(), "{kind}");
    }
}

/// The degree's range is that of the limits, at which the engine is tried.
#[test]
fn degrees_are_within_the_limits() {
    let limits = table("Limits");
    let degree = limits.iter().find(|row| row.cell("what") == "degree").expect("a row");
    let expected = format!("{} to {}", degree.cell("from"), degree.cell("to"));
    let rows = table("Kinds of curves");
    let bezier = rows.iter().find(|row| row.cell("curve") == "Bézier").expect("a row");
    assert_eq!(bezier.cell("degree"), expected);
}
