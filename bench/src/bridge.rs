//! Accepted edits of bridges, several picks each, ready for both sides.

use cad_geom::Vec2;
use cad_sketch::Sketch;
use oracle::call::Call;
use oracle::convert::{curve_place, to_sketch};
use oracle::drawing::{Drawing, Id};
use oracle::edit::{apply, edit_sketch};
use oracle::generate::{bridges, edits, random::Random};
use oracle::message::{self, Edit, Mark, Message, Operation};
use oracle::window::Window;
use oracle::{upstream, validity};

const BRIDGES: usize = 8;
const PICKS: usize = 4;
/// Relations on each bridge.
const RELATIONS: usize = 20;
/// How many picks are tried on a bridge before it is given up.
const MOST_TRIES: usize = 4000;

/// The mark of every desk and wall.
pub const MARK: Mark = 0x0123_4567_89ab_cdef;
/// Curves of the bridges.
pub const SIZES: [usize; 3] = [10, 60, 124];

/// What is done, and whether arches stand in the bridge.
#[derive(Clone, Copy)]
pub struct Work {
    pub name: &'static str,
    pub operation: Operation,
    pub arches: bool,
}

pub const WORKS: [Work; 4] = [
    Work { name: "trim", operation: Operation::Trim, arches: false },
    Work { name: "split", operation: Operation::Split, arches: false },
    Work { name: "extend", operation: Operation::Extend, arches: false },
    Work { name: "extend with arches", operation: Operation::Extend, arches: true },
];

pub struct Sample {
    pub call: Call,
    /// What one edit adds to the sum of the engine's repeated call.
    pub checksum: u32,
    pub edit: Edit,
    drawing: Drawing,
    sketch: Sketch,
    place: usize,
}

impl Sample {
    fn new(drawing: &Drawing, edit: Edit) -> Option<Sample> {
        let (after, report) = apply(drawing, &edit).ok()?;
        Some(Sample {
            call: Call::new(drawing, &edit),
            checksum: after.next_id.wrapping_add(report.removed),
            sketch: to_sketch(drawing),
            place: curve_place(drawing, edit.curve)?,
            drawing: drawing.clone(),
            edit,
        })
    }

    /// The Rust with the engine's tests: the drawing's, then the edit's, then the edit on a copy.
    pub fn tested(&self) -> Sketch {
        validity::check(&self.drawing).expect("a good drawing");
        let mut sketch = self.sketch.clone();
        edit_sketch(&self.drawing, &mut sketch, &self.edit).expect("an accepted edit");
        sketch
    }

    /// The message of the edit under a mark and a number, of a curve that may be another.
    pub fn message(&self, mark: Mark, number: u32, curve: Id) -> [u8; message::SIZE] {
        message::to_bytes(&Message { number, edit: Edit { curve, ..self.edit } }, mark)
    }

    /// The Rust's desk with the engine's tests: as `tested`, then the message, which is kept.
    pub fn desk(&self, count: u32, out: &mut [u8], window: &mut Window) -> Sketch {
        let out = out.first_chunk_mut().expect("room for a message");
        let number = count.checked_add(1).expect("a number is left");
        let sketch = self.tested();
        *out = message::to_bytes(&Message { number, edit: self.edit }, MARK);
        window.slide(number, out);
        sketch
    }

    /// The Rust's wall with the engine's tests: the drawing's, the message's, then the edit's and the
    /// edit on a copy. Nothing comes of a message that is foreign, old, ahead or refused.
    pub fn deliver(&self, count: u32, bytes: &[u8]) -> Option<Sketch> {
        validity::check(&self.drawing).expect("a good drawing");
        let message = message::read(bytes, MARK).ok()?;
        if message.number <= count || message.number - count > 1 {
            return None;
        }
        let mut sketch = self.sketch.clone();
        edit_sketch(&self.drawing, &mut sketch, &message.edit).ok()?;
        Some(sketch)
    }

    /// The Rust's edit alone, on a copy.
    pub fn bare(&self) -> Sketch {
        let mut sketch = self.sketch.clone();
        let pick = Vec2::new(self.edit.x, self.edit.y);
        let edit = match self.edit.operation {
            Operation::Trim => upstream::trim,
            Operation::Split => upstream::split,
            Operation::Extend => upstream::extend,
        };
        edit(&mut sketch, self.place, pick).expect("an accepted edit");
        sketch
    }
}

/// Accepted edits of several bridges of one size.
pub fn samples(curves: usize, work: Work) -> Vec<Sample> {
    let mut random = Random::new(1);
    let mut samples = Vec::new();
    let mut bridges = 0;
    while bridges < BRIDGES {
        let drawing = bridges::with_all_met(&mut random, curves, RELATIONS, work.arches);
        let tries = (0..MOST_TRIES).filter_map(|_| {
            let edit = edits::edit_by(&mut random, &drawing, work.operation);
            Sample::new(&drawing, edit)
        });
        let picked: Vec<Sample> = tries.take(PICKS).collect();
        bridges += usize::from(!picked.is_empty());
        samples.extend(picked);
    }
    samples
}
