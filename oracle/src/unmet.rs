//! The relations that are not met where an extend is refused for them.

use crate::call::Call;
use crate::convert::to_sketch;
use crate::drawing::Drawing;
use crate::edit::edit_sketch;
use crate::image;
use crate::message::Edit;
use crate::refusal::Refusal;

/// What a refusal by 13 found in the drawing, or one by 19 in the drawing that the edit would have
/// left.
#[derive(Clone, Debug, PartialEq, Eq)]
pub struct Unmet {
    pub refusal: Refusal,
    /// The places of all relations that are not met, in table order; there is at least one.
    pub places: Vec<usize>,
    /// How many relations stand in the table before the edit. In the one after it this is the place
    /// of the pin, the relation that an extend adds.
    pub present: usize,
}

impl Unmet {
    /// None where the edit is accepted, or refused by another number.
    pub fn of(drawing: &Drawing, edit: &Edit) -> Option<Unmet> {
        let mut sketch = to_sketch(drawing);
        let refusal = edit_sketch(drawing, &mut sketch, edit).err()?.refusal;
        if !matches!(refusal, Refusal::Unmet | Refusal::Conflict) {
            return None;
        }
        // The sketch is left as it was when its relations were looked at.
        let places = cad_sketch::unmet(&sketch).collect();
        Some(Unmet { refusal, places, present: drawing.relations.len() })
    }

    /// As `of`, for a call on bytes.
    pub fn of_call(call: &Call) -> Option<Unmet> {
        Unmet::of(&image::read(&call.image).ok()?, &call.edit()?)
    }

    pub fn is_several(&self) -> bool {
        self.places.len() > 1
    }

    /// Where the first one stands, and whether others are not met either, as counts have it.
    pub fn names(&self) -> impl Iterator<Item = &'static str> {
        let first = match self.places[0] {
            place if place == self.present => "pin's own",
            0 => "place 0",
            _ => "later place",
        };
        let several = self.is_several().then_some("several");
        let pin_too = self.is_several() && self.places.contains(&self.present);
        [Some(first), several, pin_too.then_some("pin too")].into_iter().flatten()
    }
}
