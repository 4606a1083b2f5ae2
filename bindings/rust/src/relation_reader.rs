//! Reads a relation's record, and tests what its ids lead to.

use crate::drawing::{Drawing, Id, Kind};
use crate::format::VALUE;
use crate::record::{Reading, Record};
use crate::relation::Relation;

pub fn read_relation(record: &Record, drawing: &Drawing) -> Reading<Relation> {
    let (code, [first, second]) = (record.byte(0), [1, 5].map(|at| record.id(at)));
    let value = record.float(9);
    record.value((1..=9).contains(&code), 0..1, "unknown kind of relation")?;
    record.value(![5, 8, 9].contains(&code) || second == 0, 5..9, "unused id is not 0")?;
    match code {
        5 | 6 | 8 | 9 => {
            record.value(VALUE.contains(&value), 9..17, "value is not from 0 to 4e6")?
        }
        _ => record.value(record.bits(9) == 0, 9..17, "unused value is not 0")?,
    }
    let relation = match code {
        1 => Relation::Coincident { p: first, q: second },
        2 => Relation::PointOnCurve { p: first, curve: second },
        3 => Relation::Collinear { a: first, b: second },
        4 => Relation::Equal { a: first, b: second },
        5 => Relation::Length { line: first, value },
        6 => Relation::Distance { p: first, q: second, value },
        7 => Relation::Midpoint { p: first, line: second },
        8 => Relation::ArcLength { round: first, value },
        _ => Relation::ArcSweep { round: first, value },
    };
    check_ids(record, drawing, &relation)?;
    Ok(relation)
}

/// What a relation's id must lead to.
#[derive(Clone, Copy, PartialEq)]
enum Sort {
    Point,
    Curve,
    Line,
    Round,
    LineOrRound,
}

fn sorts(relation: &Relation) -> (Sort, Option<Sort>) {
    match relation {
        Relation::Coincident { .. } | Relation::Distance { .. } => (Sort::Point, Some(Sort::Point)),
        Relation::PointOnCurve { .. } => (Sort::Point, Some(Sort::Curve)),
        Relation::Collinear { .. } => (Sort::Line, Some(Sort::Line)),
        Relation::Equal { .. } => (Sort::LineOrRound, Some(Sort::LineOrRound)),
        Relation::Length { .. } => (Sort::Line, None),
        Relation::Midpoint { .. } => (Sort::Point, Some(Sort::Line)),
        Relation::ArcLength { .. } | Relation::ArcSweep { .. } => (Sort::Round, None),
    }
}

fn check_ids(record: &Record, drawing: &Drawing, relation: &Relation) -> Reading<()> {
    let [first, second] = relation.ids();
    let (sort, other) = sorts(relation);
    record.named(leads_to(drawing, first, sort), 1..5, missing(sort))?;
    let Some(other) = other else { return Ok(()) };
    record.named(leads_to(drawing, second, other), 5..9, missing(other))?;
    record.named(sort != other || first != second, 5..9, "the same id a second time")?;
    let alike = leads_to(drawing, first, Sort::Line) == leads_to(drawing, second, Sort::Line);
    record.named(sort != Sort::LineOrRound || alike, 5..9, "one is a line, the other a round")
}

fn leads_to(drawing: &Drawing, id: Id, sort: Sort) -> bool {
    let kind = drawing.curve(id).map(|curve| &curve.kind);
    let line = matches!(kind, Some(Kind::Line { .. }));
    let round = matches!(kind, Some(Kind::Arc { .. } | Kind::Circle { .. }));
    match sort {
        Sort::Point => drawing.point(id).is_some(),
        Sort::Curve => kind.is_some(),
        Sort::Line => line,
        Sort::Round => round,
        Sort::LineOrRound => line || round,
    }
}

fn missing(sort: Sort) -> &'static str {
    match sort {
        Sort::Point => "there is no such point",
        Sort::Curve => "there is no such curve",
        Sort::Line => "there is no such line",
        Sort::Round => "there is no such arc or circle",
        Sort::LineOrRound => "there is no such line, arc or circle",
    }
}
