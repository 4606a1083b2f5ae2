//! A reader that finds the byte at fault. Whether bytes are an image, the engine decides.

use crate::drawing::{Curve, Drawing, Id, Kind, Point};
use crate::fault::{Fault, Table};
use crate::format::*;
use crate::record::{u16_at, u32_at, Reading, Record};
use crate::refusal::Refusal;
use crate::relation_reader::read_relation;
use std::ops::Range;

/// Reads an image, or answers where the first fault in it is.
///
/// ```
/// use mulkefi::{read, test, Drawing};
///
/// let mut drawing = Drawing::new();
/// drawing.add_point(0.0, 2e6);
/// let image = drawing.to_image();
/// let fault = read(&image).unwrap_err();
/// assert_eq!(Err(fault.refusal), test(&image));
/// assert_eq!(fault.field, 27..35);
/// assert_eq!(
///     fault.to_string(),
///     "bytes 27 to 34, in point 0 of its table: y is not finite or out of bounds"
/// );
/// ```
pub fn read(bytes: &[u8]) -> Result<Drawing, Fault> {
    let ([points, curves, relations], next) = header(bytes)?;
    let mut drawing = Drawing { next, ..Drawing::new() };
    let mut at = HEADER_SIZE;
    for place in 0..points {
        let record = Record { bytes, at, table: Table::Points, place };
        let point = read_point(&record, &drawing)?;
        drawing.points.push(point);
        at += POINT_SIZE;
    }
    for place in 0..curves {
        let record = Record { bytes, at, table: Table::Curves, place };
        let curve = read_curve(&record, &drawing)?;
        drawing.curves.push(curve);
        at += CURVE_SIZE;
    }
    for place in 0..relations {
        let record = Record { bytes, at, table: Table::Relations, place };
        drawing.relations.push(read_relation(&record, &drawing)?);
        at += RELATION_SIZE;
    }
    Ok(drawing)
}

/// The three counts and the next id.
fn header(bytes: &[u8]) -> Reading<([usize; 3], Id)> {
    let fault =
        |refusal, field, alone, why| Err(Fault { refusal, field, record: None, alone, why });
    let end = bytes.len()..bytes.len();
    if bytes.len() <= LENGTH_SIZE {
        return fault(Refusal::Length, end, false, "no version byte");
    }
    if bytes[VERSION_AT] != IMAGE_VERSION {
        return fault(Refusal::Version, VERSION_AT..VERSION_AT + 1, true, "version is not 1");
    }
    if u32_at(bytes, 0) as usize != bytes.len() - LENGTH_SIZE {
        return fault(Refusal::Length, 0..4, false, "length is not the number of bytes behind it");
    }
    if bytes.len() < HEADER_SIZE {
        return fault(Refusal::Length, end, false, "header is not whole");
    }
    let counts = [9, 11, 13].map(|at| usize::from(u16_at(bytes, at)));
    let limits = [
        (9..11, MOST_POINTS, "more than 512 points"),
        (11..13, MOST_CURVES, "more than 128 curves"),
        (13..15, MOST_RELATIONS, "more than 256 relations"),
    ];
    for (count, (field, limit, why)) in counts.into_iter().zip(limits) {
        if count > limit {
            return fault(Refusal::Count, field, true, why);
        }
    }
    if image_size(counts) != bytes.len() {
        return fault(Refusal::Count, 9..15, false, "counts and length do not match");
    }
    match u32_at(bytes, 5) {
        0 => fault(Refusal::Value, 5..9, true, "next id is 0"),
        next => Ok((counts, next)),
    }
}

fn read_point(record: &Record, drawing: &Drawing) -> Reading<Point> {
    let (x, y, flags) = (record.float(4), record.float(12), record.byte(20));
    let within = |v: f64| v.abs() <= GREATEST_COORDINATE;
    record.value(within(x), 4..12, "x is not finite or out of bounds")?;
    record.value(within(y), 12..20, "y is not finite or out of bounds")?;
    record.value(flags <= 1, 20..21, "unknown flag")?;
    let id = record.own_id(drawing.points.last().map(|point| point.id), drawing.next)?;
    Ok(Point { id, x, y, fixed: flags == 1 })
}

fn read_curve(record: &Record, drawing: &Drawing) -> Reading<Curve> {
    let (code, flags, degree) = (record.byte(4), record.byte(5), record.byte(6));
    record.value((1..=5).contains(&code), 4..5, "unknown kind of curve")?;
    record.value(flags <= 7, 5..6, "unknown flag")?;
    record.value(flags < 4 || code == 1, 5..6, "only lines are infinite")?;
    match code {
        4 => record.value((1..=7).contains(&degree), 6..7, "degree is not from 1 to 7")?,
        _ => record.value(degree == 0, 6..7, "only a Bézier has a degree")?,
    }
    let used = [2, 3, 1, usize::from(degree) + 1, 3][usize::from(code) - 1];
    for slot in used..SLOTS {
        record.value(record.id(slot_at(slot)) == 0, slot_field(slot), "unused slot is not 0")?;
    }
    let number = record.float(39);
    match code {
        3 => record.value(RADIUS.contains(&number), 39..47, "radius is not from 1e-6 to 1e6")?,
        5 => record.value(0.0 < number && number < 1.0, 39..47, "rho is not between 0 and 1")?,
        _ => record.value(record.bits(39) == 0, 39..47, "unused number is not 0")?,
    }
    let id = record.own_id(drawing.curves.last().map(|curve| curve.id), drawing.next)?;
    let points = read_slots(record, drawing, used, code <= 2)?;
    let kind = match (code, &points[..]) {
        (1, &[a, b]) => Kind::Line { a, b },
        (2, &[c, a, b]) => Kind::Arc { c, a, b },
        (3, &[c]) => Kind::Circle { c, radius: number },
        (5, &[a, apex, b]) => Kind::Conic { a, apex, b, rho: number },
        _ => Kind::Bezier { points },
    };
    let [construction, centerline, infinite] = [1, 2, 4].map(|bit| flags & bit != 0);
    Ok(Curve { id, kind, construction, centerline, infinite })
}

fn slot_at(slot: usize) -> usize {
    7 + 4 * slot
}

fn slot_field(slot: usize) -> Range<usize> {
    slot_at(slot)..slot_at(slot + 1)
}

/// The points of a curve; those of a line or an arc differ.
fn read_slots(record: &Record, drawing: &Drawing, used: usize, differ: bool) -> Reading<Vec<Id>> {
    let mut points = Vec::with_capacity(used);
    for slot in 0..used {
        let id = record.id(slot_at(slot));
        record.named(drawing.point(id).is_some(), slot_field(slot), "there is no such point")?;
        let twice = differ && points.contains(&id);
        record.named(!twice, slot_field(slot), "the same point a second time")?;
        points.push(id);
    }
    Ok(points)
}
