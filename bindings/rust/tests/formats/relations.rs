//! Kinds of relations: what each may name, its value, and when it is met.

use crate::document::{float, prose, table, Row};
use mulkefi::{test, Desk, Drawing, Edit, Kind, Mark, Operation, Refusal, Relation};

/// What an id leads to.
#[derive(Clone, Copy, PartialEq, Debug)]
enum Sort {
    Nothing,
    Point,
    Line,
    Round,
    Freeform,
}

/// Two points, two lines, two rounds and a freeform curve, with their ids; 0 leads to nothing.
fn everything() -> (Drawing, Vec<(Sort, u32)>) {
    let mut drawing = Drawing::new();
    let [a, b, c, d] =
        [(0.0, 0.0), (2.0, 0.0), (0.0, 2.0), (3.0, 3.0)].map(|(x, y)| drawing.add_point(x, y));
    let line = drawing.add_curve(Kind::Line { a, b });
    let other = drawing.add_curve(Kind::Line { a: c, b: d });
    let arc = drawing.add_curve(Kind::Arc { c: a, a: b, b: c });
    let circle = drawing.add_curve(Kind::Circle { c: d, radius: 1.0 });
    let bezier = drawing.add_curve(Kind::Bezier { points: vec![a, c, d] });
    let sorts = [
        (Sort::Nothing, 0),
        (Sort::Point, a),
        (Sort::Point, b),
        (Sort::Line, line),
        (Sort::Line, other),
        (Sort::Round, arc),
        (Sort::Round, circle),
        (Sort::Freeform, bezier),
    ];
    (drawing, sorts.to_vec())
}

/// Whether a row allows these two ids, by its cells.
fn allows(row: &Row, first: (Sort, u32), second: (Sort, u32)) -> bool {
    let is_curve = |sort| [Sort::Line, Sort::Round, Sort::Freeform].contains(&sort);
    let of_first = match row.cell("first id") {
        "a point" => first.0 == Sort::Point,
        "a line" => first.0 == Sort::Line,
        "a round" => first.0 == Sort::Round,
        "a line or a round" => [Sort::Line, Sort::Round].contains(&first.0),
        other => panic!("{other} is no first id"),
    };
    let another = first.1 != second.1;
    of_first
        && match row.cell("second id") {
            "0" => second.1 == 0,
            "another point" => second.0 == Sort::Point && another,
            "a curve" => is_curve(second.0),
            "a line" => second.0 == Sort::Line,
            "another line" => second.0 == Sort::Line && another,
            "another of its sort" => second.0 == first.0 && another,
            other => panic!("{other} is no second id"),
        }
}

/// The image with one relation of these bytes.
fn image_with(drawing: &Drawing, kind: u8, ids: [u32; 2], value: f64) -> Vec<u8> {
    let mut drawing = drawing.clone();
    drawing.relations.push(Relation::Coincident { p: 1, q: 2 });
    let mut image = drawing.to_image();
    let at = image.len() - 17;
    image[at] = kind;
    image[at + 1..at + 9].copy_from_slice(ids.map(u32::to_be_bytes).as_flattened());
    image[at + 9..].copy_from_slice(&value.to_be_bytes());
    image
}

#[test]
fn each_kind_names_what_its_row_says() {
    let (drawing, sorts) = everything();
    for row in table("Kinds of relations") {
        let kind = row.number("kind") as u8;
        let valued = row.cell("value") != "0";
        let mut accepted = 0;
        for first in &sorts {
            for second in &sorts {
                for value in [0.0, 1.0] {
                    let expected = allows(&row, *first, *second) && (valued || value == 0.0);
                    let image = image_with(&drawing, kind, [first.1, second.1], value);
                    assert_eq!(test(&image).is_ok(), expected, "{kind} {first:?} {second:?}");
                    accepted += usize::from(expected);
                }
            }
        }
        assert!(accepted > 0, "{kind}");
    }
}

#[test]
fn no_other_kind_is_read() {
    let (drawing, sorts) = everything();
    let last = table("Kinds of relations").len() as u8;
    for kind in (0..=u8::MAX).filter(|kind| !(1..=last).contains(kind)) {
        let tried = sorts.iter().flat_map(|a| sorts.iter().map(|b| [a.1, b.1]));
        assert!(
            !{ tried }.any(|ids| test(&image_with(&drawing, kind, ids, 0.0)).is_ok()),
            "{kind}"
        );
    }
}

/// Relations in the order of their kinds, all met in [`drawing_off`] where it is off by nothing.
fn of_each_kind() -> [Relation; 9] {
    [
        Relation::Coincident { p: 1, q: 2 },
        Relation::PointOnCurve { p: 7, curve: 5 },
        Relation::Collinear { a: 5, b: 9 },
        Relation::Equal { a: 5, b: 9 },
        Relation::Length { line: 9, value: 4.0 },
        Relation::Distance { p: 3, q: 7, value: 3.0 },
        Relation::Midpoint { p: 7, line: 5 },
        Relation::ArcLength { round: 11, value: 4.0 },
        Relation::ArcSweep { round: 11, value: 4.0 },
    ]
}

/// A drawing in which what the relation of a kind measures is off by so much, and nothing that stops the beam.
fn drawing_off(kind: usize, off: f64) -> (Drawing, u32) {
    let mut drawing = Drawing::new();
    let turned = if kind == 3 { off } else { 0.0 };
    let longer = if [4, 5].contains(&kind) { off } else { 0.0 };
    drawing.add_point(0.0, 50.0);
    drawing.add_point(if kind == 1 { off } else { 0.0 }, 50.0);
    let (a, b) = (drawing.add_point(0.0, 0.0), drawing.add_point(4.0, 0.0));
    drawing.add_curve(Kind::Line { a, b });
    let end = drawing.add_point(14.0 + longer, turned);
    // Off across line 5 for PointOnCurve, along it for Distance and Midpoint.
    let (x, y) = match kind {
        2 => (3.0, off),
        6 => (3.0 + off, 0.0),
        7 => (2.0 + off, 0.0),
        _ => (3.0, 0.0),
    };
    drawing.add_point(x, y);
    let start = drawing.add_point(10.0, 0.0);
    drawing.add_curve(Kind::Line { a: start, b: end });
    let centre = drawing.add_point(90.0, 90.0);
    drawing.add_curve(Kind::Circle { c: centre, radius: 1.0 });
    let (p, q) = (drawing.add_point(-10.0, -10.0), drawing.add_point(-10.0, -20.0));
    let beam = drawing.add_curve(Kind::Line { a: p, b: q });
    drawing.relations.push(of_each_kind()[kind - 1]);
    (drawing, beam)
}

fn is_met(kind: usize, off: f64) -> bool {
    let (drawing, curve) = drawing_off(kind, off);
    let mut desk = Desk::start(&drawing.to_image(), Mark::from(7)).expect("a good image");
    let extend = Edit { operation: Operation::Extend, curve, x: -10.0, y: -20.0 };
    match desk.edit(&extend) {
        Err(Refusal::Unmet { place: 0 }) => false,
        Err(Refusal::NothingMet) => true,
        other => panic!("{other:?}"),
    }
}

#[test]
fn relations_are_met_within_the_tolerance() {
    let text = prose();
    let (_, rest) = text.split_once("is off by no more than ").expect("the tolerance");
    let tolerance = rest.split(". ").next().and_then(float).expect("a number");
    let rows = table("When a relation is met");
    assert_eq!(rows.len(), of_each_kind().len());
    for (place, (row, relation)) in rows.iter().zip(of_each_kind()).enumerate() {
        let kind = place + 1;
        assert_eq!(row.number("kind"), kind);
        assert_eq!(row.cell("relation"), relation.name());
        let measured = row.cell("what is measured") != "nothing: it counts as met";
        assert!(is_met(kind, 0.0), "{kind}");
        assert!(is_met(kind, 0.99 * tolerance), "{kind}");
        assert_eq!(is_met(kind, 1.01 * tolerance), !measured, "{kind}");
    }
}

#[test]
fn kinds_have_their_numbers_and_names() {
    let rows = table("Kinds of relations");
    assert_eq!(rows.len(), of_each_kind().len());
    for (place, relation) in of_each_kind().into_iter().enumerate() {
        let (mut drawing, _) = drawing_off(place + 1, 0.0);
        drawing.relations = vec![relation];
        let image = drawing.to_image();
        assert_eq!(usize::from(image[image.len() - 17]), rows[place].number("kind"));
        assert_eq!(rows[place].cell("relation"), relation.name());
    }
}
