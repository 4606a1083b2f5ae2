//! The orders in which trim, split and extend refuse.

use crate::orders::{check, Given, Rule};
use mulkefi::{Curve, Desk, Drawing, Edit, Id, Kind, Mark, Operation, Point, Relation};

/// A drawing and the edit that is asked of it.
#[derive(Clone)]
struct Asked {
    drawing: Drawing,
    edit: Edit,
}

impl Asked {
    fn given(&self) -> Given {
        let mut desk = Desk::start(&self.drawing.to_image(), Mark::from(7)).expect("a good image");
        match desk.edit(&self.edit) {
            Ok(_) => Given::Accepted,
            Err(refusal) => Given::Number(refusal.number()),
        }
    }

    /// Puts a point where it is.
    fn place(&mut self, id: Id, x: f64, y: f64) {
        let point = self.drawing.points.iter_mut().find(|point| point.id == id);
        let point = point.expect("the point is there");
        (point.x, point.y) = (x, y);
    }

    fn curve(&mut self, id: Id) -> &mut Curve {
        let curve = self.drawing.curves.iter_mut().find(|curve| curve.id == id);
        curve.expect("the curve is there")
    }

    /// Puts a curve into the table by its id, in a full one in the place of the last.
    fn put(&mut self, id: Id, kind: Kind) {
        self.drawing.curves.truncate(127);
        let (construction, centerline, infinite) = (false, false, false);
        self.drawing.curves.push(Curve { id, kind, construction, centerline, infinite });
        self.drawing.curves.sort_by_key(|curve| curve.id);
    }

    fn leave_ids(&mut self, left: u32) {
        self.drawing.next = u32::MAX - left;
    }

    fn fill_points(&mut self) {
        for id in 1_000.. {
            if self.drawing.points.len() == 512 {
                break;
            }
            self.drawing.points.push(Point { id, x: 0.0, y: -999_999.0, fixed: false });
        }
    }

    fn fill_curves(&mut self) {
        for id in 2_000.. {
            if self.drawing.curves.len() == 128 {
                break;
            }
            self.put(id, Kind::Line { a: FAR[0], b: FAR[1] });
        }
    }

    /// With relations that are met.
    fn fill_relations(&mut self) {
        let met = Relation::Distance { p: FAR[0], q: FAR[1], value: 1.0 };
        self.drawing.relations.resize(256, met);
    }

    /// Before all others, of which there are as many as a table holds at most.
    fn put_relation_first(&mut self, relation: Relation) {
        self.drawing.relations.insert(0, relation);
        self.drawing.relations.truncate(256);
    }
}

/// Points far from all else, whose ids begin every drawing here.
const FAR: [Id; 4] = [1, 2, 3, 4];
/// What the edits are asked of: a circle, or a beam.
const TARGET: Id = 102;
const CENTRE: Id = 50;
/// The line that cuts the circle, or the post that stops the beam, and its points.
const OTHER: Id = 101;
const ENDS: [Id; 2] = [51, 52];
/// An arc that goes all the way round.
const FULL_ARC: Id = 103;
/// A circle that nothing meets.
const FAR_CIRCLE: Id = 104;

fn with_points(points: &[(Id, f64, f64)]) -> Drawing {
    let far = [(0.0, -1.0), (1.0, -1.0), (2.0, -1.0), (2.0, -1.0)];
    let far = FAR.into_iter().zip(far).map(|(id, (x, y))| (id, x, y * 900_000.0));
    let points = far.chain(points.iter().copied());
    let points = points.map(|(id, x, y)| Point { id, x, y, fixed: false }).collect();
    Drawing { next: 10_000, points, ..Drawing::new() }
}

/// A circle that an infinite line cuts twice, trimmed or split.
fn circle(operation: Operation) -> Asked {
    let drawing = with_points(&[(CENTRE, 0.0, 0.0), (ENDS[0], 0.0, 0.0), (ENDS[1], 1.0, 0.0)]);
    let mut asked = Asked { drawing, edit: Edit { operation, curve: TARGET, x: 0.0, y: 5.0 } };
    asked.put(OTHER, Kind::Line { a: ENDS[0], b: ENDS[1] });
    asked.curve(OTHER).infinite = true;
    asked.put(TARGET, Kind::Circle { c: CENTRE, radius: 5.0 });
    asked.put(FULL_ARC, Kind::Arc { c: FAR[1], a: FAR[2], b: FAR[3] });
    asked
}

/// One cut of the circle lies beyond 1,000,000.
fn circle_beyond(asked: &mut Asked) {
    asked.place(CENTRE, 900_000.0, 0.0);
    asked.curve(TARGET).kind = Kind::Circle { c: CENTRE, radius: 500_000.0 };
    (asked.edit.x, asked.edit.y) = (900_000.0, 400_000.0);
}

fn freeform(asked: &mut Asked) {
    asked.put(105, Kind::Bezier { points: vec![FAR[0], FAR[1]] });
}

/// The rules that trim and split have first, and those of what they add.
const PICK: Rule<Asked> = ("pick", |asked| asked.edit.x = f64::NAN);
const CURVE: Rule<Asked> = ("curve", |asked| asked.edit.curve = 9_999);
const KIND: Rule<Asked> = ("kind", |asked| asked.edit.curve = FULL_ARC);
const FREEFORM: Rule<Asked> = ("freeform", freeform);
const ADDED: [Rule<Asked>; 6] = [
    ("ids for points", |asked| asked.leave_ids(0)),
    ("table of points", Asked::fill_points),
    ("place of a point", circle_beyond),
    ("ids for curves", |asked| asked.leave_ids(2)),
    ("table of curves", Asked::fill_curves),
    ("table of relations", Asked::fill_relations),
];

#[test]
fn a_trim_is_refused_by_the_first_rule_that_is_broken() {
    let rules = [&[PICK, CURVE, KIND, FREEFORM][..], &ADDED].concat();
    check("Of a trim", &circle(Operation::Trim), &rules, &[], Asked::given);
}

#[test]
fn a_split_is_refused_by_the_first_rule_that_is_broken() {
    let place: Rule<Asked> = ("place", |asked| {
        asked.place(ENDS[0], 0.0, 999_999.0);
        asked.place(ENDS[1], 1.0, 999_999.0);
    });
    let rules = [&[PICK, CURVE, KIND, FREEFORM, place][..], &ADDED].concat();
    check("Of a split", &circle(Operation::Split), &rules, &[], Asked::given);
}

/// 10 refuses a trim of each kind that the table names, and a split of two of them.
#[test]
fn kinds_are_refused() {
    for operation in [Operation::Trim, Operation::Split] {
        let mut asked = circle(operation);
        freeform(&mut asked);
        asked.edit.curve = 105;
        assert_eq!(asked.given(), Given::Number(10));
        let mut asked = circle(operation);
        asked.edit.curve = OTHER;
        asked.edit.x = 0.5;
        let infinite =
            if operation == Operation::Trim { Given::Number(10) } else { Given::Accepted };
        assert_eq!(asked.given(), infinite);
    }
}

/// Of two new points the first is tested by all three rules, and then the second.
#[test]
fn points_are_tested_one_after_the_other() {
    let mut asked = circle(Operation::Trim);
    asked.leave_ids(1);
    assert_eq!(asked.given(), Given::Number(23));
    circle_beyond(&mut asked);
    assert_eq!(asked.given(), Given::Number(24));
}

/// The foot of the pick at an end, or beyond it.
#[test]
fn a_line_is_not_split_at_its_ends() {
    let mut asked = circle(Operation::Split);
    asked.edit.curve = OTHER;
    for (x, given) in [
        (-1.0, Given::Number(12)),
        (0.0, Given::Number(12)),
        (1e-8, Given::Accepted),
        (0.5, Given::Accepted),
        (1.0, Given::Number(12)),
        (9.0, Given::Number(12)),
    ] {
        asked.edit.x = x;
        assert_eq!(asked.given(), given, "{x}");
    }
}

/// A curve that is removed whole needs no room.
#[test]
fn a_whole_curve_is_trimmed_from_full_tables() {
    let mut asked = circle(Operation::Trim);
    asked.curve(OTHER).infinite = false;
    asked.place(ENDS[0], 0.0, 999_999.0);
    asked.place(ENDS[1], 1.0, 999_999.0);
    asked.fill_points();
    asked.fill_curves();
    asked.fill_relations();
    asked.leave_ids(0);
    assert_eq!(asked.given(), Given::Accepted);
}

/// A beam from (0, 0) to (2, 0) that a post at x = 5 stops, extended.
fn beam() -> Asked {
    let points = [(ENDS[0], 5.0, -1.0), (ENDS[1], 5.0, 1.0), (60, 0.0, 0.0), (61, 2.0, 0.0)];
    let edit = Edit { operation: Operation::Extend, curve: TARGET, x: 2.0, y: 0.0 };
    let mut asked = Asked { drawing: with_points(&points), edit };
    asked.put(OTHER, Kind::Line { a: ENDS[0], b: ENDS[1] });
    asked.put(TARGET, Kind::Line { a: 60, b: 61 });
    asked.put(FAR_CIRCLE, Kind::Circle { c: FAR[0], radius: 1.0 });
    asked
}

/// A line along the beam, before the post in the table.
fn overlap(asked: &mut Asked, id: Id) {
    asked.drawing.points.push(Point { id: 70, x: 7.0, y: 0.0, fixed: false });
    asked.drawing.points.push(Point { id: 71, x: 8.0, y: 0.0, fixed: false });
    asked.drawing.points.sort_by_key(|point| point.id);
    asked.put(id, Kind::Line { a: 70, b: 71 });
}

/// A large curve whose end lies 0.00000015 off the beam: a hit, which is not near enough.
fn inexact(asked: &mut Asked, id: Id) {
    asked.drawing.points.push(Point { id: 80, x: 1_000.0, y: 1.5e-7, fixed: false });
    asked.drawing.points.push(Point { id: 81, x: 1_000.0, y: 1e6, fixed: false });
    asked.drawing.points.sort_by_key(|point| point.id);
    asked.put(id, Kind::Bezier { points: vec![80, 81] });
}

const EXTEND: [Rule<Asked>; 9] = [
    ("relations", |asked| {
        asked.put_relation_first(Relation::Distance { p: FAR[0], q: FAR[1], value: 2.0 });
    }),
    ("end", |asked| {
        asked.drawing.points.iter_mut().filter(|p| p.id == 61).for_each(|p| p.fixed = true);
    }),
    ("overlap", |asked| overlap(asked, 98)),
    ("exactness", |asked| inexact(asked, 99)),
    ("nothing", |asked| {
        // Behind the other end of the beam, and not endless.
        asked.place(ENDS[0], -5.0, -1.0);
        asked.place(ENDS[1], -5.0, 1.0);
        asked.curve(OTHER).infinite = false;
    }),
    ("tie", |asked| {
        let infinite = asked.curve(OTHER).infinite;
        asked.put(100, Kind::Line { a: ENDS[0], b: ENDS[1] });
        asked.curve(100).infinite = infinite;
    }),
    ("place of a point", |asked| {
        asked.place(ENDS[0], 1e6, 5e5);
        asked.place(ENDS[1], 9e5, 6e5);
        asked.curve(OTHER).infinite = true;
    }),
    ("table of relations", Asked::fill_relations),
    ("relations afterwards", |asked| {
        asked.put_relation_first(Relation::Length { line: TARGET, value: 2.0 });
    }),
];

#[test]
fn an_extend_is_refused_by_the_first_rule_that_is_broken() {
    let kind: Rule<Asked> = ("kind", |asked| asked.edit.curve = FAR_CIRCLE);
    let rules = [&[PICK, CURVE, kind][..], &EXTEND].concat();
    check("Of an extend", &beam(), &rules, &[("nothing", "tie")], Asked::given);
}

/// Of a curve along the line and one without an exact hit the first in the table decides.
#[test]
fn the_first_of_the_other_curves_decides() {
    for (along, off, number) in [(98, 99, 15), (99, 98, 16)] {
        let mut asked = beam();
        overlap(&mut asked, along);
        inexact(&mut asked, off);
        assert_eq!(asked.given(), Given::Number(number));
    }
}

/// Beside freeform curves a line without a direction is refused.
#[test]
fn a_line_without_a_direction_is_refused_beside_a_freeform_curve() {
    let mut asked = beam();
    freeform(&mut asked);
    asked.place(61, 9e-13, 0.0);
    assert_eq!(asked.given(), Given::Number(16));
    asked.place(61, 2e-12, 0.0);
    assert_eq!(asked.given(), Given::Accepted);
}

/// An end that another curve uses is held.
#[test]
fn an_end_in_use_is_held() {
    let mut asked = beam();
    asked.put(99, Kind::Line { a: 61, b: FAR[0] });
    assert_eq!(asked.given(), Given::Number(14));
}
