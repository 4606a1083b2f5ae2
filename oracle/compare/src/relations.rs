//! Which relation of a sketch is the first that is not met.

use crate::counts::Counts;
use crate::sketches::Case;
use crate::subject::Subject;
use cad_sketch::first_unmet;
use oracle::convert::to_sketch;
use oracle::drawing::Drawing;
use oracle::generate::{bridges, near_relations, random::Random};
use oracle::refusal::number_of;

pub struct Relations;

/// Beside a place, which is added to it, no refusal's number.
const PLACES: u32 = 256;

const KINDS: [&str; 9] = [
    "Coincident",
    "PointOnCurve",
    "Collinear",
    "Equal",
    "Length",
    "Distance",
    "Midpoint",
    "ArcLength",
    "ArcSweep",
];

/// Of the relations up to the first that is not met.
fn count(drawing: &Drawing, unmet: Option<usize>, counts: &mut Counts) {
    let kind = |place: usize| KINDS[usize::from(drawing.relations[place].code()) - 1];
    for place in 0..unmet.unwrap_or(drawing.relations.len()) {
        counts.add(kind(place), "met");
    }
    if let Some(place) = unmet {
        counts.add(kind(place), "not met");
    }
}

impl Subject for Relations {
    const NAME: &'static str = "relations";
    type Case = Case;
    type Answer = u32;
    type Coverage = Counts;

    fn case(random: &mut Random) -> Case {
        let drawing = if random.one_in(4) {
            bridges::any_drawing(random)
        } else {
            near_relations::drawing(random)
        };
        if random.one_in(8) {
            Case::of(&drawing, random)
        } else {
            Case::intact(&drawing)
        }
    }

    fn oracle(case: &Case, counts: &mut Counts) -> u32 {
        match case.drawing() {
            Ok(drawing) => {
                let unmet = first_unmet(&to_sketch(&drawing));
                count(&drawing, unmet, counts);
                unmet.map_or(0, |place| PLACES + place as u32)
            }
            Err(refusal) => {
                counts.add("refused", "all");
                u32::from(number_of(&Err::<(), _>(refusal)))
            }
        }
    }

    fn engine(case: &Case) -> u32 {
        engine::relations_test(&case.image.0, case.next, case.counts)
    }

    fn shrink(case: Case, differs: impl Fn(&Case) -> bool) -> Case {
        case.shrunk(differs)
    }
}
