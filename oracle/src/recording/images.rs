//! The list of images: every field of every kind of record at its limits, and whole drawings.

use super::{faults, List};
use crate::drawing::*;
use crate::examples;
use crate::generate::bridges::{self, Size};
use crate::generate::damage::damage;
use crate::generate::fields::{self, edge_value, Field, Tables};
use crate::generate::random::Random;
use crate::image::{self, HEADER_SIZE};
use std::collections::BTreeSet;

pub fn images(seed: u64) -> List<Drawing> {
    let mut random = Random::new(seed);
    let mut list = List::new(image::read);
    add_headers(&mut list, &mut random);
    let mut seen = BTreeSet::new();
    for drawing in one_of_each() {
        add_record_edges(&mut list, &mut random, &drawing, &mut seen);
    }
    for drawing in faults::all() {
        list.add(image::to_bytes(&drawing));
    }
    add_unholdable(&mut list);
    add_counts_past_limits(&mut list);
    for size in [Size::Small, Size::Middle, Size::Bridge, Size::Crowded, Size::Largest] {
        list.add(image::to_bytes(&bridges::drawing(&mut random, size)));
    }
    add_damaged(&mut list, &mut random);
    list
}

/// The empty image cut at every length, its header fields at their limits, and the examples.
fn add_headers(list: &mut List<Drawing>, random: &mut Random) {
    let empty = image::to_bytes(&Drawing::empty());
    list.add(empty.clone());
    for length in 0..HEADER_SIZE {
        list.add(empty[..length].to_vec());
        let mut shorter = empty[..length].to_vec();
        if length >= 4 {
            shorter[3] = (length - 4) as u8;
        }
        list.add(shorter);
    }
    for drawing in [Drawing::empty(), examples::l(), examples::t()] {
        let good = image::to_bytes(&drawing);
        list.add(good.clone());
        // Each byte of the length field counts.
        for byte in 0..4 {
            let mut other = good.clone();
            other[byte] ^= 1;
            list.add(other);
        }
        for field in &fields::HEADER_FIELDS {
            add_edges(list, random, &good, field, 1);
        }
    }
}

/// Small drawings with one record of each kind between them.
fn one_of_each() -> Vec<Drawing> {
    let point = |id: Id| Point { id, x: f64::from(id), y: -0.5, fixed: id == 2 };
    let curve =
        |kind| Curve { id: 9, kind, construction: true, centerline: false, infinite: false };
    let with = |kinds: &[CurveKind], relations: Vec<Relation>| Drawing {
        next_id: 12,
        points: (1..=8).map(point).collect(),
        curves: (9..).zip(kinds).map(|(id, kind)| Curve { id, ..curve(*kind) }).collect(),
        relations,
    };
    let line = |a, b| CurveKind::Line { a, b };
    let arc = CurveKind::Arc { c: 1, a: 2, b: 3 };
    let circle = CurveKind::Circle { c: 2, radius: 1.5 };
    let bezier = |degree: u8| CurveKind::Bezier {
        degree,
        points: std::array::from_fn(
            |slot| if slot <= usize::from(degree) { 1 + slot as Id } else { 0 },
        ),
    };
    let conic = CurveKind::Conic { a: 1, apex: 2, b: 3, rho: 0.5 };
    vec![
        with(&[line(1, 2), line(3, 4)], vec![Relation::Collinear { a: 9, b: 10 }]),
        with(&[arc, circle], vec![Relation::Equal { a: 9, b: 10 }]),
        with(&[bezier(3)], vec![Relation::Coincident { p: 1, q: 2 }]),
        with(&[bezier(7)], vec![Relation::PointOnCurve { p: 1, c: 9 }]),
        with(&[conic], vec![Relation::Distance { p: 1, q: 3, value: 2.0 }]),
        with(&[line(1, 2)], vec![Relation::Length { line: 9, value: -0.0 }]),
        with(&[line(5, 6)], vec![Relation::Midpoint { p: 1, line: 9 }]),
        with(&[circle], vec![Relation::ArcLength { round: 9, value: 1.0 }]),
        with(&[arc], vec![Relation::ArcSweep { round: 9, value: 4_000_000.0 }]),
    ]
}

/// The last record of each table, field by field, unless one of its kind came before.
fn add_record_edges(
    list: &mut List<Drawing>,
    random: &mut Random,
    drawing: &Drawing,
    seen: &mut BTreeSet<(usize, u8, u8)>,
) {
    let good = image::to_bytes(drawing);
    let tables = Tables::of(&good).expect("a good image fits its counts");
    list.add(good.clone());
    for table in 0..3 {
        let start = tables.record(table, tables.counts[table] - 1);
        // Points are all of one kind, a curve's kind goes with its degree.
        let kind = match table {
            0 => (0, 0, 0),
            1 => (1, good[start + 4], good[start + 6]),
            _ => (2, good[start], 0),
        };
        if !seen.insert(kind) {
            continue;
        }
        for field in Tables::fields(table) {
            let field = Field { at: start + field.at, ..*field };
            add_edges(list, random, &good, &field, 1);
        }
    }
}

fn add_edges(
    list: &mut List<Drawing>,
    random: &mut Random,
    good: &[u8],
    field: &Field,
    each: usize,
) {
    let variants = (0..40).map(|_| {
        let mut variant = good.to_vec();
        let value = edge_value(random, good, field);
        fields::set(&mut variant, field, value);
        variant
    });
    list.add_by_outcome(each, variants);
}

/// What no drawing can hold: unknown kinds and flags, and a −0 where the bits must be 0; alone,
/// and behind an earlier record whose reference is wrong.
fn add_unholdable(list: &mut List<Drawing>) {
    let circle = CurveKind::Circle { c: 2, radius: 1.0 };
    let mut drawing = examples::l();
    drawing.next_id = 5;
    drawing.curves.push(examples::curve(4, circle));
    drawing.relations.push(Relation::Coincident { p: 1, q: 2 });
    drawing.relations.push(Relation::ArcSweep { round: 4, value: 1.0 });
    let good = image::to_bytes(&drawing);
    let tables = Tables::of(&good).expect("a good image fits its counts");
    let at = |table: usize, place: usize, field: usize| tables.record(table, place) + field;
    let changes = [
        (at(0, 1, 20), 2, at(0, 0, 3)),
        (at(1, 1, 4), 0, at(1, 0, 3)),
        (at(1, 0, 4), 6, at(0, 1, 3)),
        (at(1, 1, 4), 6, at(1, 0, 10)),
        (at(1, 0, 39), 0x80, at(0, 1, 3)),
        (at(2, 1, 0), 0, at(2, 0, 4)),
        (at(2, 1, 0), 10, at(2, 0, 8)),
        (at(2, 0, 9), 0x80, at(1, 1, 10)),
    ];
    for (fault, value, id) in changes {
        let mut bytes = good.clone();
        bytes[fault] = value;
        list.add(bytes.clone());
        bytes[id] = 99;
        list.add(bytes);
    }
}

/// For each table one record too many, all else in order.
fn add_counts_past_limits(list: &mut List<Drawing>) {
    let points: Vec<Point> =
        (1..=513).map(|id| Point { id, x: 0.0, y: 0.0, fixed: false }).collect();
    let kind = CurveKind::Line { a: 1, b: 2 };
    let curve = Curve { id: 0, kind, construction: false, centerline: false, infinite: false };
    let curves: Vec<Curve> = (1..=129).map(|id| Curve { id, ..curve }).collect();
    let relations = vec![Relation::Coincident { p: 1, q: 2 }; 257];
    let with = |p: usize, c: usize, r: usize| Drawing {
        next_id: 1000,
        points: points[..p].to_vec(),
        curves: curves[..c].to_vec(),
        relations: relations[..r].to_vec(),
    };
    for drawing in [with(513, 0, 0), with(2, 129, 0), with(2, 128, 0), with(2, 1, 257)] {
        list.add(image::to_bytes(&drawing));
    }
}

/// Images with faults of several sorts, two of each damage and outcome.
fn add_damaged(list: &mut List<Drawing>, random: &mut Random) {
    let variants: Vec<_> = (0..2000)
        .map(|_| {
            let mut bytes = image::to_bytes(&bridges::drawing(random, Size::Small));
            let damage = damage(random, &mut bytes);
            (damage, bytes)
        })
        .filter(|(_, bytes)| bytes.len() < 600)
        .collect();
    let kinds: BTreeSet<_> = variants.iter().map(|(kind, _)| *kind).collect();
    for kind in kinds {
        let of_kind = variants.iter().filter(|(damage, _)| *damage == kind);
        list.add_by_outcome(2, of_kind.map(|(_, bytes)| bytes.clone()));
    }
}
