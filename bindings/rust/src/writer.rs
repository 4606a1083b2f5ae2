//! Images of drawings.

use crate::drawing::{Curve, Drawing, Kind, Point};
use crate::format::{image_size, IMAGE_VERSION, LENGTH_SIZE, SLOTS};
use crate::relation::Relation;

impl Drawing {
    /// The bytes of the drawing's image. Where the drawing breaks a rule, they break it too, and the
    /// engine says which.
    ///
    /// ```
    /// use mulkefi::{read, test, Drawing, Kind, Refusal};
    ///
    /// let mut drawing = Drawing::new();
    /// let (a, b) = (drawing.add_point(0.0, 0.0), drawing.add_point(4.0, 0.0));
    /// drawing.add_curve(Kind::Line { a, b });
    /// assert_eq!(test(&drawing.to_image()), Ok(()));
    /// assert_eq!(read(&drawing.to_image()).as_ref(), Ok(&drawing));
    ///
    /// drawing.add_curve(Kind::Line { a, b: a });
    /// assert_eq!(test(&drawing.to_image()), Err(Refusal::Reference));
    /// ```
    pub fn to_image(&self) -> Vec<u8> {
        let counts = [self.points.len(), self.curves.len(), self.relations.len()];
        let size = image_size(counts);
        let mut bytes = Vec::with_capacity(size);
        let length = u32::try_from(size - LENGTH_SIZE).unwrap_or(u32::MAX);
        bytes.extend(length.to_be_bytes());
        bytes.push(IMAGE_VERSION);
        bytes.extend(self.next.to_be_bytes());
        // A count past its field is over every limit.
        let fields = counts.map(|count| u16::try_from(count).unwrap_or(u16::MAX).to_be_bytes());
        bytes.extend(fields.as_flattened());
        self.points.iter().for_each(|point| put_point(&mut bytes, point));
        self.curves.iter().for_each(|curve| put_curve(&mut bytes, curve));
        self.relations.iter().for_each(|relation| put_relation(&mut bytes, relation));
        bytes
    }
}

fn put_point(bytes: &mut Vec<u8>, point: &Point) {
    bytes.extend(point.id.to_be_bytes());
    bytes.extend(point.x.to_bits().to_be_bytes());
    bytes.extend(point.y.to_bits().to_be_bytes());
    bytes.push(point.fixed.into());
}

fn put_curve(bytes: &mut Vec<u8>, curve: &Curve) {
    let (code, number) = match curve.kind {
        Kind::Line { .. } => (1, 0.0),
        Kind::Arc { .. } => (2, 0.0),
        Kind::Circle { radius, .. } => (3, radius),
        Kind::Bezier { .. } => (4, 0.0),
        Kind::Conic { rho, .. } => (5, rho),
    };
    let ids = curve.kind.points();
    let degree = match curve.kind {
        // Too many points or none give a degree that is refused.
        Kind::Bezier { .. } => u8::try_from(ids.len().saturating_sub(1)).unwrap_or(u8::MAX),
        _ => 0,
    };
    let flags = [curve.construction, curve.centerline, curve.infinite];
    bytes.extend(curve.id.to_be_bytes());
    bytes.push(code);
    bytes.push(flags.iter().rev().fold(0, |bits, flag| bits << 1 | u8::from(*flag)));
    bytes.push(degree);
    for slot in 0..SLOTS {
        bytes.extend(ids.get(slot).copied().unwrap_or(0).to_be_bytes());
    }
    bytes.extend(number.to_bits().to_be_bytes());
}

fn put_relation(bytes: &mut Vec<u8>, relation: &Relation) {
    bytes.push(match relation {
        Relation::Coincident { .. } => 1,
        Relation::PointOnCurve { .. } => 2,
        Relation::Collinear { .. } => 3,
        Relation::Equal { .. } => 4,
        Relation::Length { .. } => 5,
        Relation::Distance { .. } => 6,
        Relation::Midpoint { .. } => 7,
        Relation::ArcLength { .. } => 8,
        Relation::ArcSweep { .. } => 9,
    });
    bytes.extend(relation.ids().map(u32::to_be_bytes).as_flattened());
    bytes.extend(relation.value().map_or(0, f64::to_bits).to_be_bytes());
}
