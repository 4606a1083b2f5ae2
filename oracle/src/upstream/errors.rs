//! The number of each reason that upstream or a stand-in gives.

use crate::refusal::Refusal;
use cad_sketch::SketchError;

/// Upstream's messages that an edit can meet once the tests before it have passed.
const MESSAGES: [(&str, Refusal); 12] = [
    ("split: Choose an interior point; a circle requires two crossings", Refusal::NoPlace),
    ("extend: Solve the current sketch first", Refusal::Unmet),
    ("extend: that end is connected to other geometry", Refusal::EndHeld),
    ("sketch.extend: the continuation overlaps another curve", Refusal::Overlap),
    ("sketch.extend: zero-length support", Refusal::Unresolved),
    ("sketch.extend: the intersection could not be resolved accurately", Refusal::Unresolved),
    ("extend: multiple curves stop the extension at the same distance", Refusal::Tie),
    ("extend: nothing to extend to", Refusal::NothingMet),
    (
        "extend: the extension conflicts with constraints or cannot preserve its original support",
        Refusal::Conflict,
    ),
    ("sketch.extend: invalid intersection polynomial", Refusal::Coefficients),
    ("sketch.extend: intersection work limit exceeded", Refusal::Work),
    ("split: a circle needs two points to split at", Refusal::NoPlace),
];

/// The refusal for an error; a message that no edit should meet is a fault of the oracle.
pub fn refusal_of(error: &SketchError) -> Refusal {
    match error {
        SketchError::IdsUsedUp => Refusal::Numbers,
        SketchError::TableFull => Refusal::TableFull,
        SketchError::OutOfRange => Refusal::Coordinate,
        SketchError::Invalid(message) => MESSAGES
            .iter()
            .find(|(text, _)| text == message)
            .map(|(_, refusal)| *refusal)
            .unwrap_or_else(|| panic!("upstream met what the tests before it rule out: {message}")),
    }
}
