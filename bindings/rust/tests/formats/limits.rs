//! The limits: each value at its limits is accepted, and the nearest ones outside are refused by the number.

use crate::document::{float, table};
use crate::orders::Given;
use crate::sources::header;
use mulkefi::{
    message, roots, test, Desk, Drawing, Edit, Id, Kind, Mark, Operation, Refusal, Relation, Wall,
};

fn given<T>(result: Result<T, Refusal>) -> Given {
    result.map_or_else(|refusal| Given::Number(refusal.number()), |_| Given::Accepted)
}

/// So many points, with a line between the first two and relations of it.
fn counted(points: usize, curves: usize, relations: usize) -> Given {
    let mut drawing = Drawing::new();
    for x in 0..points {
        drawing.add_point(x as f64, 0.0);
    }
    for _ in 0..curves {
        drawing.add_curve(Kind::Line { a: 1, b: 2 });
    }
    let relation = Relation::Distance { p: 1, q: 2, value: 1.0 };
    drawing.relations = vec![relation; relations];
    given(test(&drawing.to_image()))
}

/// A line between two points, and a relation of it, with the last table's record as the edit leaves it.
fn image_with(change: impl Fn(&mut Drawing)) -> Given {
    let mut drawing = Drawing::new();
    let (a, b) = (drawing.add_point(0.0, 0.0), drawing.add_point(4.0, 0.0));
    drawing.add_curve(Kind::Line { a, b });
    drawing.next = u32::MAX;
    change(&mut drawing);
    given(test(&drawing.to_image()))
}

fn with_point_id(id: Id) -> Given {
    let mut drawing = Drawing::new();
    drawing.add_point(0.0, 0.0);
    drawing.points[0].id = id;
    drawing.next = u32::MAX;
    given(test(&drawing.to_image()))
}

fn with_next_id(next: Id) -> Given {
    given(test(&Drawing { next, ..Drawing::new() }.to_image()))
}

/// A Bézier curve whose degree is written over; it has as many points as the slots can hold of it.
fn with_degree(degree: u8) -> Given {
    let mut drawing = Drawing::new();
    let points = (0..8.min(u32::from(degree) + 1)).map(|x| drawing.add_point(x.into(), 0.0));
    let points = points.collect();
    drawing.add_curve(Kind::Bezier { points });
    let mut image = drawing.to_image();
    let at = image.len() - 47 + 6;
    image[at] = degree;
    given(test(&image))
}

fn edited(x: f64, y: f64) -> Given {
    let mut drawing = Drawing::new();
    let (a, b) = (drawing.add_point(-1e6, -1e6), drawing.add_point(1e6, 1e6));
    let curve = drawing.add_curve(Kind::Line { a, b });
    let mut desk = Desk::start(&drawing.to_image(), Mark::from(7)).expect("a good image");
    given(desk.edit(&Edit { operation: Operation::Trim, curve, x, y }))
}

/// A message with a number and an operation, at the wall that waits for this number.
fn delivered(number: u32, operation: u8) -> Given {
    let mut drawing = Drawing::new();
    let (a, b) = (drawing.add_point(0.0, 0.0), drawing.add_point(4.0, 0.0));
    let c = drawing.add_point(6.0, -1.0);
    let d = drawing.add_point(6.0, 1.0);
    let curve = drawing.add_curve(Kind::Line { a, b });
    drawing.add_curve(Kind::Line { a: c, b: d });
    let image = drawing.to_image();
    let mut desk = Desk::start(&image, Mark::from(7)).expect("a good image");
    let trim = Edit { operation: Operation::Trim, curve, x: 2.5, y: 0.0 };
    let mut bytes = desk.edit(&trim).expect("the trim is accepted").message;
    bytes[message::NUMBER_AT..message::OPERATION_AT].copy_from_slice(&number.to_be_bytes());
    bytes[message::OPERATION_AT] = operation;
    let count = number.saturating_sub(1);
    let mut wall = Wall::start_at(&image, Mark::from(7), count).expect("a good image");
    given(wall.deliver(&bytes))
}

/// A call with this value in the place that a row names.
fn call(what: &str, v: f64) -> Given {
    match what {
        "points" => counted(v as usize, 0, 0),
        "curves" => counted(2, v as usize, 0),
        "relations" => counted(2, 0, v as usize),
        "next id" => with_next_id(v as u32),
        "id of a point" => with_point_id(v as u32),
        "id of a curve" => image_with(|drawing| drawing.curves[0].id = v as u32),
        "x of a point" => image_with(|drawing| drawing.points[0].x = v),
        "y of a point" => image_with(|drawing| drawing.points[0].y = v),
        "radius" => image_with(|drawing| drawing.curves[0].kind = Kind::Circle { c: 1, radius: v }),
        "rho" => image_with(|drawing| {
            drawing.curves[0].kind = Kind::Conic { a: 1, apex: 2, b: 1, rho: v };
        }),
        "degree" => with_degree(v as u8),
        "value of a relation" => image_with(|drawing| {
            drawing.relations.push(Relation::Length { line: 3, value: v });
        }),
        "number of an edit" => delivered(v as u32, 1),
        "operation" => delivered(1, v as u8),
        "x of a pick" => edited(v, 0.0),
        "y of a pick" => edited(0.0, v),
        "coefficients of a polynomial" => given(roots(&vec![1.0; v as usize], 100)),
        other => panic!("{other} is no limit"),
    }
}

/// A limit, and whether it is itself in range.
fn limit(cell: &str) -> (f64, bool) {
    let open = cell.strip_prefix("above ").or(cell.strip_prefix("below "));
    let value = float(open.unwrap_or(cell)).unwrap_or_else(|| panic!("{cell} is no limit"));
    (value, open.is_none())
}

const FLOATS: [&str; 7] = [
    "x of a point",
    "y of a point",
    "radius",
    "rho",
    "value of a relation",
    "x of a pick",
    "y of a pick",
];

#[test]
fn values_are_accepted_within_their_limits_alone() {
    let rows = table("Limits");
    assert_eq!(rows.len(), 17);
    for row in rows {
        let what = row.cell("what");
        let refused = Given::Number(row.number("else") as u16);
        let is_float = FLOATS.contains(&what);
        let (from, from_in) = limit(row.cell("from"));
        let (to, to_in) = limit(row.cell("to"));
        let below = if is_float { from.next_down() } else { from - 1.0 };
        let above = if is_float { to.next_up() } else { to + 1.0 };
        let (first, last) = match (from_in, to_in) {
            (true, true) => (from, to),
            _ => (from.next_up(), to.next_down()),
        };
        // What no field can hold is no limit, and is not tried.
        let held = |v: &f64| is_float || (0.0..=f64::from(u32::MAX)).contains(v);
        for v in [first, last] {
            assert!(held(&v), "{what} {v}");
            assert_eq!(call(what, v), Given::Accepted, "{what} {v}");
        }
        let outside =
            [below, above, if from_in { below } else { from }, if to_in { above } else { to }];
        for v in outside.into_iter().filter(held) {
            assert_eq!(call(what, v), refused, "{what} {v}");
        }
        let endless = [f64::NAN, f64::INFINITY, f64::NEG_INFINITY];
        for v in endless.into_iter().filter(|_| is_float) {
            assert_eq!(call(what, v), refused, "{what} {v}");
        }
    }
}

#[test]
fn limits_are_the_headers() {
    let of = |what: &str, column: &str| {
        let rows = table("Limits");
        let row = rows.iter().find(|row| row.cell("what") == what).expect("a row");
        limit(row.cell(column)).0
    };
    for (what, name) in [
        ("points", "MULKEFI_MOST_POINTS"),
        ("curves", "MULKEFI_MOST_CURVES"),
        ("relations", "MULKEFI_MOST_RELATIONS"),
        ("x of a point", "MULKEFI_MOST_COORDINATE"),
        ("x of a pick", "MULKEFI_MOST_COORDINATE"),
        ("coefficients of a polynomial", "MULKEFI_MOST_COEFFICIENTS"),
        ("operation", "MULKEFI_EXTEND"),
    ] {
        assert_eq!(of(what, "to"), header(name), "{what}");
    }
}
