//! Members that a person draws at the desk.

use mulkefi::{test, Drawing, Id, Kind, Position, Refusal};
use std::ops::RangeInclusive;

/// What a coordinate's magnitude is at most, and what a radius is.
const GREATEST_COORDINATE: f64 = 1e6;
const RADIUS: RangeInclusive<f64> = 1e-6..=1e6;
/// Three positions are on one line where the sine of their angle is no more than this.
const STRAIGHT: f64 = 1e-9;

#[derive(Clone, Copy, Debug, PartialEq)]
pub enum Member {
    Line { ends: [Position; 2] },
    Circle { centre: Position, rim: Position },
    Arc { ends: [Position; 2], through: Position },
}

/// Why a member can't be drawn.
#[derive(Clone, Copy, Debug, PartialEq, Eq)]
pub enum Fault {
    OutOfBounds,
    OneEnd(&'static str),
    Radius,
    Straight,
    Full,
    /// The engine's refusal of the new image.
    Refused(Refusal),
}

impl Fault {
    pub fn sentence(self) -> String {
        match self {
            Fault::OutOfBounds => {
                "A coordinate may be no larger than 1,000,000 in magnitude.".into()
            }
            Fault::OneEnd(article_and_kind) => {
                format!("{article_and_kind} needs two different ends.")
            }
            Fault::Radius => "A radius must be from 0.000001 to 1,000,000.".into(),
            Fault::Straight => "These three positions lie on one line.".into(),
            Fault::Full => {
                "The drawing has no room for it: 512 points and 128 curves are the most.".into()
            }
            Fault::Refused(refusal) => refusal.sentence().into(),
        }
    }
}

impl Member {
    pub fn name(&self) -> &'static str {
        match self {
            Member::Line { .. } => "line",
            Member::Circle { .. } => "circle",
            Member::Arc { .. } => "arc",
        }
    }

    /// The drawing with the member in it, and the member's id. An end that is within a distance of a standing
    /// point is that point.
    pub fn add_to(&self, drawing: &Drawing, within: f64) -> Result<(Drawing, Id), Fault> {
        let mut drawn = drawing.clone();
        let id = match *self {
            Member::Line { ends } => {
                let [a, b] = place_ends(&mut drawn, ends, within, "A line")?;
                drawn.add_curve(Kind::Line { a, b })
            }
            Member::Circle { centre, rim } => {
                let radius = radius(centre, rim)?;
                let c = add_point(&mut drawn, centre)?;
                drawn.add_curve(Kind::Circle { c, radius })
            }
            Member::Arc { ends, through } => {
                let [a, b] = place_ends(&mut drawn, ends, within, "An arc")?;
                let at = |id: Id| drawn.point(id).map(|point| Position::new(point.x, point.y));
                let (start, end) = (at(a).unwrap_or(ends[0]), at(b).unwrap_or(ends[1]));
                let arc = Round::through(start, through, end)?;
                let c = add_point(&mut drawn, arc.centre)?;
                let (a, b) = if arc.is_counter_clockwise { (a, b) } else { (b, a) };
                drawn.add_curve(Kind::Arc { c, a, b })
            }
        };
        match test(&drawn.to_image()) {
            Ok(()) => Ok((drawn, id)),
            Err(Refusal::Count) => Err(Fault::Full),
            Err(refusal) => Err(Fault::Refused(refusal)),
        }
    }
}

/// Two ends that are different points, and farther apart than a touch is exact.
fn place_ends(
    drawing: &mut Drawing,
    ends: [Position; 2],
    within: f64,
    article_and_kind: &'static str,
) -> Result<[Id; 2], Fault> {
    let first = nearest_point(drawing, ends[0], within);
    let first = first.map_or_else(|| add_point(drawing, ends[0]), Ok)?;
    let second = nearest_point(drawing, ends[1], within);
    let second = second.map_or_else(|| add_point(drawing, ends[1]), Ok)?;
    let [a, b] = [first, second].map(|id| drawing.point(id).map(|point| (point.x, point.y)));
    match first == second || a == b {
        true => Err(Fault::OneEnd(article_and_kind)),
        false => Ok([first, second]),
    }
}

/// The point that is nearest to a position and within a distance of it.
fn nearest_point(drawing: &Drawing, at: Position, within: f64) -> Option<Id> {
    let points = drawing.points.iter();
    let apart = points.map(|point| (at.distance(Position::new(point.x, point.y)), point.id));
    let near = apart.filter(|(distance, _)| *distance <= within);
    near.min_by(|one, other| one.0.total_cmp(&other.0)).map(|(_, id)| id)
}

fn add_point(drawing: &mut Drawing, at: Position) -> Result<Id, Fault> {
    match [at.x, at.y].iter().all(|value| value.abs() <= GREATEST_COORDINATE) {
        true => Ok(drawing.add_point(at.x, at.y)),
        false => Err(Fault::OutOfBounds),
    }
}

fn radius(centre: Position, rim: Position) -> Result<f64, Fault> {
    let radius = centre.distance(rim);
    if RADIUS.contains(&radius) {
        Ok(radius)
    } else {
        Err(Fault::Radius)
    }
}

/// The circle through three positions.
struct Round {
    centre: Position,
    /// Whether it goes counter-clockwise from the first by the second to the third.
    is_counter_clockwise: bool,
}

impl Round {
    fn through(start: Position, through: Position, end: Position) -> Result<Round, Fault> {
        let [(bx, by), (cx, cy)] = [through, end].map(|p| (p.x - start.x, p.y - start.y));
        let cross = bx * cy - by * cx;
        let (b, c) = (bx.hypot(by), cx.hypot(cy));
        if cross.abs() <= STRAIGHT * b * c {
            return Err(Fault::Straight);
        }
        let (b2, c2) = (b * b, c * c);
        let x = (cy * b2 - by * c2) / (2.0 * cross);
        let y = (bx * c2 - cx * b2) / (2.0 * cross);
        let centre = Position::new(start.x + x, start.y + y);
        radius(centre, start)?;
        Ok(Round { centre, is_counter_clockwise: cross > 0.0 })
    }
}

#[cfg(test)]
mod tests {
    use super::*;
    use mulkefi::Stroke;

    fn at(x: f64, y: f64) -> Position {
        Position::new(x, y)
    }

    fn line(from: Position, to: Position) -> Member {
        Member::Line { ends: [from, to] }
    }

    fn arc(start: Position, through: Position, end: Position) -> Member {
        Member::Arc { ends: [start, end], through }
    }

    fn draw(drawing: &Drawing, member: Member) -> Drawing {
        member.add_to(drawing, 1.0).expect("a member that can be drawn").0
    }

    #[test]
    fn an_end_next_to_a_standing_point_is_that_point() {
        let first = draw(&Drawing::new(), line(at(0.0, 0.0), at(10.0, 0.0)));
        let (second, id) = line(at(9.5, 0.5), at(10.0, 8.0)).add_to(&first, 1.0).expect("a line");
        assert_eq!(second.points.len(), 3);
        let end = first.points[1].id;
        assert!(
            matches!(second.curve(id).expect("it is drawn").kind, Kind::Line { a, .. } if a == end)
        );
        let (apart, _) = line(at(9.5, 0.5), at(10.0, 8.0)).add_to(&first, 0.1).expect("a line");
        assert_eq!(apart.points.len(), 4);
    }

    #[test]
    fn of_two_points_the_nearer_is_taken() {
        let first = draw(&Drawing::new(), line(at(0.0, 0.0), at(1.5, 0.0)));
        assert_eq!(nearest_point(&first, at(0.7, 0.0), 1.0), Some(first.points[0].id));
        assert_eq!(nearest_point(&first, at(0.8, 0.0), 1.0), Some(first.points[1].id));
        assert_eq!(nearest_point(&first, at(0.7, 4.0), 1.0), None);
    }

    /// The arc's stroke passes through all three positions, whichever way they are given.
    #[test]
    fn an_arc_passes_through_its_three_positions() {
        for [start, through, end] in [
            [at(10.0, 0.0), at(0.0, 10.0), at(-10.0, 0.0)],
            [at(-10.0, 0.0), at(0.0, 10.0), at(10.0, 0.0)],
            [at(10.0, 0.0), at(0.0, -10.0), at(-10.0, 0.0)],
            [at(0.0, 10.0), at(-10.0, 0.0), at(10.0, 0.0)],
        ] {
            let drawing = draw(&Drawing::new(), arc(start, through, end));
            let stroke = Stroke::of(&drawing, &drawing.curves[0]).expect("its points are there");
            let along = stroke.positions();
            for position in [start, through, end] {
                let nearest = along.iter().map(|one| one.distance(position)).fold(99.0, f64::min);
                assert!(nearest < 0.5, "{position:?} of {stroke:?}");
            }
            let Stroke::Arc { centre, radius, .. } = stroke else { panic!("an arc") };
            assert!(centre.distance(at(0.0, 0.0)) < 1e-9 && (radius - 10.0).abs() < 1e-9);
        }
    }

    #[test]
    fn a_circle_has_its_rim_through_the_second_position() {
        let circle = Member::Circle { centre: at(1.0, 2.0), rim: at(4.0, 6.0) };
        let drawing = draw(&Drawing::new(), circle);
        assert!(matches!(drawing.curves[0].kind, Kind::Circle { radius: 5.0, .. }));
    }

    #[test]
    fn what_cannot_be_drawn_gets_a_sentence() {
        let first = draw(&Drawing::new(), line(at(0.0, 0.0), at(10.0, 0.0)));
        for (member, fault) in [
            (line(at(0.2, 0.0), at(0.0, 0.3)), Fault::OneEnd("A line")),
            (line(at(50.0, 0.0), at(50.0, 0.3)), Fault::OneEnd("A line")),
            (arc(at(50.0, 0.0), at(60.0, 5.0), at(50.2, 0.0)), Fault::OneEnd("An arc")),
            (arc(at(50.0, 0.0), at(60.0, 5.0), at(70.0, 10.0)), Fault::Straight),
            (arc(at(50.0, 0.0), at(50.0, 0.0), at(70.0, 10.0)), Fault::Straight),
            (arc(at(50.0, 0.0), at(60.0, 1e-6), at(70.0, 0.0)), Fault::Radius),
            (line(at(50.0, 0.0), at(2e6, 0.0)), Fault::OutOfBounds),
            (line(at(50.0, -2e6), at(2.0, 0.0)), Fault::OutOfBounds),
            (Member::Circle { centre: at(1.0, 1.0), rim: at(1.0, 1.0) }, Fault::Radius),
            (Member::Circle { centre: at(1.0, 1.0), rim: at(1e7, 1.0) }, Fault::Radius),
            (Member::Circle { centre: at(2e6, 1.0), rim: at(2e6, 2.0) }, Fault::OutOfBounds),
        ] {
            assert_eq!(member.add_to(&first, 1.0), Err(fault), "{member:?}");
            assert!(fault.sentence().ends_with('.'));
        }
        assert_eq!(Fault::OneEnd("A line").sentence(), "A line needs two different ends.");
        assert_eq!(Fault::Straight.sentence(), "These three positions lie on one line.");
    }

    #[test]
    fn ends_on_one_position_are_refused_without_a_distance_too() {
        let twice = line(at(5.0, 5.0), at(5.0, 5.0));
        assert_eq!(twice.add_to(&Drawing::new(), 0.0), Err(Fault::OneEnd("A line")));
    }

    #[test]
    fn a_full_table_has_no_room() {
        let mut drawing = Drawing::new();
        for place in 0..128 {
            let circle = Member::Circle { centre: at(f64::from(place), 0.0), rim: at(0.0, 9.0) };
            drawing = circle.add_to(&drawing, 0.0).expect("there is room").0;
        }
        let one_more = line(at(0.0, 0.0), at(9.0, 9.0)).add_to(&drawing, 0.0);
        assert_eq!(one_more, Err(Fault::Full));
    }
}
