//! Relations in words, for the person at the desk.

use mulkefi::{Drawing, Id, Relation, UnmetRelation};

/// What the relation of a refused edit of this curve says.
pub fn unmet(drawing: &Drawing, relation: UnmetRelation<'_>, curve: Id) -> String {
    match relation {
        UnmetRelation::Standing(relation) => standing(drawing, relation),
        UnmetRelation::Pin => {
            let line = named(drawing, curve);
            format!("the new end of {line} is to lie on the curve that stops it")
        }
    }
}

fn standing(drawing: &Drawing, relation: &Relation) -> String {
    let curve = |id: Id| named(drawing, id);
    match *relation {
        Relation::Coincident { p, q } => format!("points {p} and {q} are to coincide"),
        Relation::PointOnCurve { p, curve: on } => format!("point {p} is to lie on {}", curve(on)),
        Relation::Collinear { a, b } => {
            format!("{} and {} are to lie on one straight line", curve(a), curve(b))
        }
        Relation::Equal { a, b } => {
            format!("{} and {} are to be equal in size", curve(a), curve(b))
        }
        Relation::Length { line, value } => format!("{} is to be {value} long", curve(line)),
        Relation::Distance { p, q, value } => format!("points {p} and {q} are to be {value} apart"),
        Relation::Midpoint { p, line } => {
            format!("point {p} is to be the middle of {}", curve(line))
        }
        Relation::ArcLength { round, value } => format!("{} is to be {value} long", curve(round)),
        Relation::ArcSweep { round, value } => {
            format!("{} is to sweep {value} radians", curve(round))
        }
    }
}

/// A curve by its kind and id.
pub fn named(drawing: &Drawing, id: Id) -> String {
    let kind = drawing.curve(id).map_or("curve", |curve| curve.kind.name());
    format!("{kind} {id}")
}

#[cfg(test)]
mod tests {
    use super::*;
    use mulkefi::Kind;

    #[test]
    fn each_kind_of_relation_has_its_words() {
        let mut drawing = Drawing::new();
        let (p, q) = (drawing.add_point(0.0, 0.0), drawing.add_point(4.0, 0.0));
        let a = drawing.add_curve(Kind::Line { a: p, b: q });
        let round = drawing.add_curve(Kind::Circle { c: p, radius: 2.0 });
        let (line, b, curve) = (a, a, round);
        for (relation, words) in [
            (Relation::Coincident { p, q }, "points 1 and 2 are to coincide"),
            (Relation::PointOnCurve { p, curve }, "point 1 is to lie on circle 4"),
            (Relation::Collinear { a, b }, "line 3 and line 3 are to lie on one straight line"),
            (Relation::Equal { a, b }, "line 3 and line 3 are to be equal in size"),
            (Relation::Length { line, value: 4.5 }, "line 3 is to be 4.5 long"),
            (Relation::Distance { p, q, value: 4.0 }, "points 1 and 2 are to be 4 apart"),
            (Relation::Midpoint { p, line }, "point 1 is to be the middle of line 3"),
            (Relation::ArcLength { round, value: 1.0 }, "circle 4 is to be 1 long"),
            (Relation::ArcSweep { round, value: 1.5 }, "circle 4 is to sweep 1.5 radians"),
        ] {
            assert_eq!(unmet(&drawing, UnmetRelation::Standing(&relation), line), words);
        }
        let pin = unmet(&drawing, UnmetRelation::Pin, line);
        assert_eq!(pin, "the new end of line 3 is to lie on the curve that stops it");
        assert_eq!(named(&drawing, 9), "curve 9");
    }
}
