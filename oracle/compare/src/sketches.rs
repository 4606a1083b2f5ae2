//! Sketches that no reader gives: one that was read, with another next id and other counts.

use crate::hex::Hex;
use crate::shrink;
use crate::subject::Subject;
use oracle::drawing::{Drawing, MAX_CURVES, MAX_POINTS, MAX_RELATIONS};
use oracle::generate::fields::Tables;
use oracle::generate::{bridges, coverage::Coverage, damage, random::Random};
use oracle::refusal::{number_of, Refusal};
use oracle::{image, validity};

pub struct Sketches;

#[derive(Debug)]
pub struct Case {
    pub image: Hex,
    pub next: u32,
    /// At most those of the image, or over a limit: between them the slots hold anything.
    pub counts: [u32; 3],
}

impl Case {
    /// A drawing as it is.
    pub fn intact(drawing: &Drawing) -> Case {
        let tables = [drawing.points.len(), drawing.curves.len(), drawing.relations.len()];
        let counts = tables.map(|count| count as u32);
        Case { image: Hex(image::to_bytes(drawing)), next: drawing.next_id, counts }
    }

    /// A drawing's image, rarely damaged, with a next id and counts that are mostly its own.
    pub fn of(drawing: &Drawing, random: &mut Random) -> Case {
        let mut bytes = image::to_bytes(drawing);
        let last = drawing.points.last().map_or(0, |point| point.id);
        let next = drawing.next_id;
        let nexts = [(12, next), (1, next - 1), (1, 0), (1, 1), (1, last), (1, u32::MAX)];
        if random.one_in(50) {
            damage::damage(random, &mut bytes);
        }
        let held = Tables::of(&bytes).map_or([0; 3], |tables| tables.counts);
        Case { image: Hex(bytes), next: random.weighted(&nexts), counts: some_counts(random, held) }
    }

    /// A smaller image for which `differs` still holds.
    pub fn shrunk(self, differs: impl Fn(&Case) -> bool) -> Case {
        let bytes = shrink::image(&self.image.0, |bytes| differs(&self.with_image(bytes)));
        self.with_image(&bytes)
    }

    /// The drawing of the altered sketch, if it is one that an image gives.
    pub fn drawing(&self) -> Result<Drawing, Refusal> {
        let mut drawing = image::read(&self.image.0)?;
        let [points, curves, relations] = self.counts.map(|count| count as usize);
        validity::check_counts(points, curves, relations)?;
        drawing.next_id = self.next;
        drawing.points.truncate(points);
        drawing.curves.truncate(curves);
        drawing.relations.truncate(relations);
        validity::check(&drawing)?;
        Ok(drawing)
    }

    /// Another image: full counts stay full, others stay as they are or as low as they must be.
    fn with_image(&self, bytes: &[u8]) -> Case {
        let counts = |image: &[u8]| Tables::of(image).map(|tables| tables.counts);
        let counts = match (counts(&self.image.0), counts(bytes)) {
            (Some(before), Some(now)) => std::array::from_fn(|table| {
                let count = self.counts[table] as usize;
                let over = count > LIMITS[table];
                let follows = count == before[table] || count > now[table];
                (if follows && !over { now[table] } else { count }) as u32
            }),
            _ => self.counts,
        };
        Case { image: Hex(bytes.to_vec()), next: self.next, counts }
    }
}

const LIMITS: [usize; 3] = [MAX_POINTS, MAX_CURVES, MAX_RELATIONS];

fn some_counts(random: &mut Random, held: [usize; 3]) -> [u32; 3] {
    std::array::from_fn(|table| {
        let fewer = random.below(held[table] + 1);
        let over = LIMITS[table] + 1 + random.below(2);
        let one_less = held[table].saturating_sub(1);
        let far_over = u32::MAX as usize;
        let shares = [(60, held[table]), (8, fewer), (8, one_less), (2, over), (1, far_over)];
        random.weighted(&shares) as u32
    })
}

impl Subject for Sketches {
    const NAME: &'static str = "sketches";
    type Case = Case;
    type Answer = u32;
    type Coverage = Coverage;

    fn case(random: &mut Random) -> Case {
        let drawing = bridges::any_drawing(random);
        Case::of(&drawing, random)
    }

    fn oracle(case: &Case, coverage: &mut Coverage) -> u32 {
        let number = number_of(&case.drawing().map(|_| ()));
        coverage.outcome(number);
        u32::from(number)
    }

    fn engine(case: &Case) -> u32 {
        engine::sketch_test(&case.image.0, case.next, case.counts)
    }

    fn shrink(case: Case, differs: impl Fn(&Case) -> bool) -> Case {
        case.shrunk(differs)
    }
}
