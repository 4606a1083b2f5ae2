//! The image of a drawing: a header, then the records of the three tables.

use crate::bytes::{f64_at, put, u16_at, u32_at, u64_at};
use crate::drawing::*;
use crate::refusal::Refusal;
use crate::validity;

pub const VERSION: u8 = 1;
/// Length field, version, next id and three counts.
pub const HEADER_SIZE: usize = 15;
pub const POINT_SIZE: usize = 21;
pub const CURVE_SIZE: usize = 47;
pub const RELATION_SIZE: usize = 17;
pub const MAX_SIZE: usize = size_of_counts(MAX_POINTS, MAX_CURVES, MAX_RELATIONS);
/// The length field counts the bytes after itself.
pub const LENGTH_SIZE: usize = 4;

pub const fn size_of_counts(points: usize, curves: usize, relations: usize) -> usize {
    HEADER_SIZE + POINT_SIZE * points + CURVE_SIZE * curves + RELATION_SIZE * relations
}

pub fn size(drawing: &Drawing) -> usize {
    size_of_counts(drawing.points.len(), drawing.curves.len(), drawing.relations.len())
}

/// Reads an image, or says why it is none.
pub fn read(bytes: &[u8]) -> Result<Drawing, Refusal> {
    let header = Header::read(bytes)?;
    let mut drawing = Drawing {
        next_id: header.next_id,
        points: Vec::with_capacity(header.points),
        curves: Vec::with_capacity(header.curves),
        relations: Vec::with_capacity(header.relations),
    };
    let (points, rest) = bytes[HEADER_SIZE..].split_at(POINT_SIZE * header.points);
    let (curves, relations) = rest.split_at(CURVE_SIZE * header.curves);
    let mut previous = 0;
    for record in points.as_chunks().0 {
        let point = read_point(record)?;
        validity::check_point(&point, previous, header.next_id)?;
        previous = point.id;
        drawing.points.push(point);
    }
    previous = 0;
    for record in curves.as_chunks().0 {
        let curve = read_curve(record)?;
        validity::check_curve(&curve, previous, header.next_id, &drawing.points)?;
        previous = curve.id;
        drawing.curves.push(curve);
    }
    for record in relations.as_chunks().0 {
        let relation = read_relation(record)?;
        validity::check_relation(&relation, &drawing.points, &drawing.curves)?;
        drawing.relations.push(relation);
    }
    Ok(drawing)
}

struct Header {
    next_id: Id,
    points: usize,
    curves: usize,
    relations: usize,
}

impl Header {
    fn read(bytes: &[u8]) -> Result<Header, Refusal> {
        if bytes.len() <= LENGTH_SIZE {
            return Err(Refusal::Length);
        }
        if bytes[4] != VERSION {
            return Err(Refusal::Version);
        }
        let length_agrees = u32_at(bytes, 0) as usize == bytes.len() - LENGTH_SIZE;
        if !length_agrees || bytes.len() < HEADER_SIZE {
            return Err(Refusal::Length);
        }
        let count = |at| usize::from(u16_at(bytes, at));
        let header = Header {
            next_id: u32_at(bytes, 5),
            points: count(9),
            curves: count(11),
            relations: count(13),
        };
        validity::check_counts(header.points, header.curves, header.relations)?;
        if bytes.len() != size_of_counts(header.points, header.curves, header.relations) {
            return Err(Refusal::Count);
        }
        validity::check_next_id(header.next_id)?;
        Ok(header)
    }
}

fn read_point(record: &[u8; POINT_SIZE]) -> Result<Point, Refusal> {
    let flags = record[20];
    if flags > 1 {
        return Err(Refusal::Value);
    }
    Ok(Point {
        id: u32_at(record, 0),
        x: f64_at(record, 4),
        y: f64_at(record, 12),
        fixed: flags == 1,
    })
}

fn read_curve(record: &[u8; CURVE_SIZE]) -> Result<Curve, Refusal> {
    let (flags, degree, number) = (record[5], record[6], u64_at(record, 39));
    let slots: [Id; SLOTS] = std::array::from_fn(|slot| u32_at(record, 7 + 4 * slot));
    let kind = match record[4] {
        1 => CurveKind::Line { a: slots[0], b: slots[1] },
        2 => CurveKind::Arc { c: slots[0], a: slots[1], b: slots[2] },
        3 => CurveKind::Circle { c: slots[0], radius: f64::from_bits(number) },
        4 => CurveKind::Bezier { degree, points: slots },
        5 => {
            let rho = f64::from_bits(number);
            CurveKind::Conic { a: slots[0], apex: slots[1], b: slots[2], rho }
        }
        _ => return Err(Refusal::Value),
    };
    // A Bézier's slots are tested with its degree.
    let (used, has_degree, has_number) = match kind {
        CurveKind::Line { .. } => (2, false, false),
        CurveKind::Arc { .. } => (3, false, false),
        CurveKind::Circle { .. } => (1, false, true),
        CurveKind::Bezier { .. } => (SLOTS, true, false),
        CurveKind::Conic { .. } => (3, false, true),
    };
    let unused_are_zero = (has_degree || degree == 0)
        && (has_number || number == 0)
        && slots[used..].iter().all(|slot| *slot == 0);
    if flags > 0b111 || !unused_are_zero {
        return Err(Refusal::Value);
    }
    Ok(Curve {
        id: u32_at(record, 0),
        kind,
        construction: flags & 0b001 != 0,
        centerline: flags & 0b010 != 0,
        infinite: flags & 0b100 != 0,
    })
}

fn read_relation(record: &[u8; RELATION_SIZE]) -> Result<Relation, Refusal> {
    let (first, second, bits) = (u32_at(record, 1), u32_at(record, 5), u64_at(record, 9));
    let value = f64::from_bits(bits);
    let relation = match record[0] {
        1 => Relation::Coincident { p: first, q: second },
        2 => Relation::PointOnCurve { p: first, c: second },
        3 => Relation::Collinear { a: first, b: second },
        4 => Relation::Equal { a: first, b: second },
        5 => Relation::Length { line: first, value },
        6 => Relation::Distance { p: first, q: second, value },
        7 => Relation::Midpoint { p: first, line: second },
        8 => Relation::ArcLength { round: first, value },
        9 => Relation::ArcSweep { round: first, value },
        _ => return Err(Refusal::Value),
    };
    let unused_are_zero = relation.ids()[1] == second && (relation.value().is_some() || bits == 0);
    if unused_are_zero {
        Ok(relation)
    } else {
        Err(Refusal::Value)
    }
}

/// Tests the drawing, then the buffer's room, and writes the image to its front.
/// Answers the image's size.
pub fn write(drawing: &Drawing, out: &mut [u8]) -> Result<usize, Refusal> {
    validity::check(drawing)?;
    encode(drawing, out)
}

/// `write` for a drawing that is known to be good.
pub fn encode(drawing: &Drawing, out: &mut [u8]) -> Result<usize, Refusal> {
    let size = size(drawing);
    let out = out.get_mut(..size).ok_or(Refusal::Buffer)?;
    let (header, rest) = out.split_at_mut(HEADER_SIZE);
    let (points, rest) = rest.split_at_mut(POINT_SIZE * drawing.points.len());
    let (curves, relations) = rest.split_at_mut(CURVE_SIZE * drawing.curves.len());
    put(header, 0, ((size - LENGTH_SIZE) as u32).to_be_bytes());
    header[4] = VERSION;
    put(header, 5, drawing.next_id.to_be_bytes());
    put(header, 9, (drawing.points.len() as u16).to_be_bytes());
    put(header, 11, (drawing.curves.len() as u16).to_be_bytes());
    put(header, 13, (drawing.relations.len() as u16).to_be_bytes());
    for (record, point) in points.as_chunks_mut().0.iter_mut().zip(&drawing.points) {
        write_point(record, point);
    }
    for (record, curve) in curves.as_chunks_mut().0.iter_mut().zip(&drawing.curves) {
        write_curve(record, curve);
    }
    for (record, relation) in relations.as_chunks_mut().0.iter_mut().zip(&drawing.relations) {
        write_relation(record, relation);
    }
    Ok(size)
}

/// The image as bytes of its own, for a drawing that is known to be good.
pub fn to_bytes(drawing: &Drawing) -> Vec<u8> {
    let mut bytes = vec![0; size(drawing)];
    encode(drawing, &mut bytes).expect("the buffer has the image's size");
    bytes
}

fn write_point(record: &mut [u8; POINT_SIZE], point: &Point) {
    put(record, 0, point.id.to_be_bytes());
    put(record, 4, point.x.to_bits().to_be_bytes());
    put(record, 12, point.y.to_bits().to_be_bytes());
    record[20] = u8::from(point.fixed);
}

fn write_curve(record: &mut [u8; CURVE_SIZE], curve: &Curve) {
    let mut slots = [0; SLOTS];
    let (mut degree_byte, mut number) = (0, 0);
    match curve.kind {
        CurveKind::Line { a, b } => slots[..2].copy_from_slice(&[a, b]),
        CurveKind::Arc { c, a, b } => slots[..3].copy_from_slice(&[c, a, b]),
        CurveKind::Circle { c, radius } => {
            slots[0] = c;
            number = radius.to_bits();
        }
        CurveKind::Bezier { degree, points } => {
            slots = points;
            degree_byte = degree;
        }
        CurveKind::Conic { a, apex, b, rho } => {
            slots[..3].copy_from_slice(&[a, apex, b]);
            number = rho.to_bits();
        }
    }
    put(record, 0, curve.id.to_be_bytes());
    record[4] = curve.kind.code();
    record[5] = u8::from(curve.construction)
        | u8::from(curve.centerline) << 1
        | u8::from(curve.infinite) << 2;
    record[6] = degree_byte;
    for (place, slot) in slots.iter().enumerate() {
        put(record, 7 + 4 * place, slot.to_be_bytes());
    }
    put(record, 39, number.to_be_bytes());
}

fn write_relation(record: &mut [u8; RELATION_SIZE], relation: &Relation) {
    let [first, second] = relation.ids();
    record[0] = relation.code();
    put(record, 1, first.to_be_bytes());
    put(record, 5, second.to_be_bytes());
    put(record, 9, relation.value().map_or(0, f64::to_bits).to_be_bytes());
}
