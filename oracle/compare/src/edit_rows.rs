//! Counts of edits: by operation and kind of the target, by what an extend met, and by the places that
//! come with 13 and 19.

use crate::counts::Counts;
use crate::numerals::numeral;
use crate::places;
use oracle::call::{Call, REPORT_SIZE};
use oracle::drawing::{CurveKind, Drawing, Relation};
use oracle::image;
use oracle::message::Operation;
use oracle::unmet::Unmet;

const KINDS: [&str; 6] = ["none", "line", "arc", "circle", "Bézier", "conic"];

/// One row for each operation and kind of target.
const ROWS: [[&str; 6]; 3] = [
    ["trim nothing", "trim line", "trim arc", "trim circle", "trim Bézier", "trim conic"],
    ["split nothing", "split line", "split arc", "split circle", "split Bézier", "split conic"],
    [
        "extend nothing",
        "extend line",
        "extend arc",
        "extend circle",
        "extend Bézier",
        "extend conic",
    ],
];

/// The rows of the places that come with 13 and with 19.
const PLACES: [&str; 2] = ["extend 13", "extend 19"];

/// Counts a call by its answer; what an accepted one left stands in the buffer.
pub fn count(call: &Call, number: u32, out: &[u8], counts: &mut Counts) {
    let outcome = numeral(number as u8);
    let (Ok(drawing), Some(operation)) = (image::read(&call.image), call.operation()) else {
        return counts.add("no image or call", outcome);
    };
    let kind = drawing.curve(call.curve).map_or(0, |curve| curve.kind.code());
    counts.add(ROWS[usize::from(operation.code()) - 1][usize::from(kind)], outcome);
    match (operation, number) {
        (Operation::Extend, 0) => {
            if let Some(after) = image_behind_report(out) {
                counts.add("extend met", met(&after));
            }
        }
        (_, 13 | 19) => {
            places::count(PLACES, Unmet::of_call(call), counts);
        }
        _ => {}
    }
}

fn image_behind_report(out: &[u8]) -> Option<Drawing> {
    let image = out.get(REPORT_SIZE..)?;
    let length = u32::from_be_bytes(*image.first_chunk()?) as usize;
    image::read(image.get(..length + 4)?).ok()
}

/// What the last relation pins the moved end to.
fn met(after: &Drawing) -> &'static str {
    match after.relations.last() {
        Some(Relation::PointOnCurve { c, .. }) => match after.curve(*c) {
            Some(curve) if curve.infinite => "endless line",
            Some(curve) => KINDS[usize::from(curve.kind.code())],
            None => KINDS[0],
        },
        Some(Relation::Coincident { q, .. }) => {
            let ends_there = |kind: &CurveKind| match *kind {
                CurveKind::Line { a, b } => [a, b].contains(q),
                _ => false,
            };
            match after.curves.iter().any(|curve| ends_there(&curve.kind)) {
                true => "end of a line",
                false => "end of an arc",
            }
        }
        _ => KINDS[0],
    }
}
