//! Every measure of a shape at a point and at a parameter.

use crate::counts::Counts;
use crate::number::Number;
use crate::simpler;
use crate::subject::Subject;
use cad_geom::Vec2;
use engine::shapes;
use oracle::figure::{Figure, Kind};
use oracle::generate::{figures, random::Random};

pub struct Measures;

#[derive(Debug)]
pub struct Case {
    figure: Figure,
    point: Vec2,
    parameter: f64,
}

#[derive(Debug, PartialEq)]
pub struct Answer {
    param: Number,
    dist: Number,
    full: bool,
    range: [Number; 2],
    point: [Number; 2],
    project: [Number; 2],
}

impl Answer {
    fn numbers(&self) -> [f64; 6] {
        [self.param, self.dist, self.point[0], self.point[1], self.project[0], self.project[1]]
            .map(|number| number.0)
    }

    fn count(&self, case: &Case, counts: &mut Counts) {
        let row = match case.figure.kind {
            Kind::Line => "line",
            Kind::Arc => "arc",
            Kind::Circle => "circle",
        };
        counts.add(row, "all");
        counts.add_if(self.full, row, "full");
        counts.add_if(self.dist.0 == 0.0, row, "on it");
        counts.add_if(self.dist.0 < 1e-5, row, "near it");
        counts.add_if(self.numbers().iter().any(|x| x.to_bits() == 1 << 63), row, "-0");
        counts.add_if(self.numbers().iter().any(|x| x.is_infinite()), row, "infinite");
        counts.add_if(self.numbers().iter().any(|x| x.is_nan()), row, "NaN");
    }
}

impl Subject for Measures {
    const NAME: &'static str = "measures";
    type Case = Case;
    type Answer = Answer;
    type Coverage = Counts;

    fn case(random: &mut Random) -> Case {
        let kind = random.pick(&Kind::ALL);
        let figure = figures::figure(random, kind);
        let point = figures::point_by(random, &figure);
        Case { figure, point, parameter: figures::parameter(random, &figure) }
    }

    fn oracle(case: &Case, counts: &mut Counts) -> Answer {
        let shape = case.figure.shape();
        let pair = |p: Vec2| [Number(p.x), Number(p.y)];
        let (start, end) = shape.range();
        let answer = Answer {
            param: Number(shape.param(case.point)),
            dist: Number(shape.dist(case.point)),
            full: shape.is_full(),
            range: [Number(start), Number(end)],
            point: pair(shape.point(case.parameter)),
            project: pair(shape.project(case.point)),
        };
        answer.count(case, counts);
        answer
    }

    fn engine(case: &Case) -> Answer {
        let (kind, numbers) = (case.figure.kind.number(), &case.figure.numbers);
        let Vec2 { x, y } = case.point;
        let (mut range, mut point, mut project) = ([0.0; 2], [0.0; 2], [0.0; 2]);
        shapes::range(kind, numbers, &mut range);
        shapes::point(kind, numbers, case.parameter, &mut point);
        shapes::project(kind, numbers, x, y, &mut project);
        Answer {
            param: Number(shapes::param(kind, numbers, x, y)),
            dist: Number(shapes::dist(kind, numbers, x, y)),
            full: shapes::is_full(kind, numbers),
            range: range.map(Number),
            point: point.map(Number),
            project: project.map(Number),
        }
    }

    fn shrink(case: Case, differs: impl Fn(&Case) -> bool) -> Case {
        let kind = case.figure.kind;
        let of = |numbers: &[f64; 9]| {
            let [a, b, c, d, e, f, x, y, parameter] = *numbers;
            let figure = Figure { kind, numbers: [a, b, c, d, e, f] };
            Case { figure, point: Vec2::new(x, y), parameter }
        };
        let [a, b, c, d, e, f] = case.figure.numbers;
        let numbers = [a, b, c, d, e, f, case.point.x, case.point.y, case.parameter];
        of(&simpler::numbers(numbers, |numbers| {
            let case = of(numbers);
            figures::has_point(&case.figure, case.parameter) && differs(&case)
        }))
    }
}
