//! The drawings that a person may begin with.

use crate::bridges::{self, Bridge, DECK, EAST, WEST};
use mulkefi::{Drawing, Relation};

pub struct Offered {
    /// As a request names it.
    pub name: String,
    /// As a page shows it.
    pub title: String,
    pub drawing: Drawing,
}

/// The name of the drawing with which the hall opens, which is the first.
pub const OPENING: &str = "opening";

/// The opening bridge, those of the simulated hall as they are drawn, and none at all.
pub fn all() -> Vec<Offered> {
    let mut offered = vec![offer(OPENING, "Bridge to try", opening())];
    let simulated = bridges::all().into_iter();
    offered.extend(simulated.map(|bridge| {
        let title = bridge.name[..1].to_uppercase() + &bridge.name[1..];
        offer(&bridge.name.replace(' ', "-"), &title, bridge.whole_drawing())
    }));
    offered.push(offer("empty", "Empty", Drawing::new()));
    offered
}

fn offer(name: &str, title: &str, drawing: Drawing) -> Offered {
    Offered { name: name.into(), title: title.into(), drawing }
}

/// A bridge on which each edit shows: hangers that stick out over the arch, struts that stick out under the
/// water, a deck to split, hangers that end short of the arch, circles, and a mast whose length is given.
pub fn opening() -> Drawing {
    let mut bridge = Bridge::new(OPENING);
    bridge.line((WEST, DECK), (EAST, DECK));
    bridge.arc((60.0, -10.0), (100.0, DECK), (20.0, DECK));
    for x in [18.5, 101.5] {
        bridge.pier(x);
    }
    for x in [40.0, 50.0, 60.0, 70.0, 80.0] {
        bridge.line((x, DECK), (x, 46.0));
    }
    for x in [30.0, 90.0] {
        bridge.line((x, DECK), (x, 25.0));
    }
    for (x, lean) in [(36.0, 4.0), (58.0, -3.0), (62.0, 3.0), (84.0, -4.0)] {
        bridge.line((x, DECK), (x + lean, -3.5));
    }
    for x in [0.0, 120.0] {
        bridge.circle((x, 9.0), 7.5);
        bridge.line((x - 9.5, 9.0), (x + 9.5, 9.0));
    }
    mast(&mut bridge, 128.0);
    bridge.drawing
}

/// A mast that ends short of the beam over it. Its length is given, so that an extend is refused by 19.
fn mast(bridge: &mut Bridge, x: f64) {
    let height = 14.0;
    let line = bridge.line((x, DECK), (x, DECK + height));
    bridge.line((x - 9.0, 42.0), (x + 9.0, 42.0));
    bridge.relate(Relation::Length { line, value: height });
}

#[cfg(test)]
mod tests {
    use super::*;
    use mulkefi::{test, Desk, Edit, Mark, Operation, Refusal};

    #[test]
    fn names_are_words_of_a_request_and_each_drawing_is_good() {
        let offered = all();
        let names: Vec<&str> = offered.iter().map(|one| one.name.as_str()).collect();
        assert_eq!(names, [OPENING, "round-arch", "free-arch", "footbridge", "empty"]);
        let titles: Vec<&str> = offered.iter().map(|one| one.title.as_str()).collect();
        assert_eq!(titles, ["Bridge to try", "Round arch", "Free arch", "Footbridge", "Empty"]);
        for Offered { name, drawing, .. } in offered {
            assert_eq!(test(&drawing.to_image()), Ok(()), "{name}");
        }
    }

    #[test]
    fn each_edit_shows_on_the_opening_bridge() {
        let drawing = opening();
        let mut desk = Desk::start(&drawing.to_image(), Mark::from(1)).expect("a good image");
        for (operation, x, y, expected) in [
            (Operation::Trim, 60.0, 45.0, Ok(true)),
            (Operation::Trim, 40.0, -2.5, Ok(true)),
            (Operation::Trim, 0.0, 1.5, Ok(true)),
            (Operation::Split, 110.0, DECK, Ok(false)),
            (Operation::Extend, 30.0, 24.0, Ok(false)),
            (Operation::Extend, 128.0, 33.0, Err(Refusal::Conflict { place: 0 })),
        ] {
            let drawing = mulkefi::read(desk.image()).expect("a desk holds a good image");
            let curve = drawing.nearest(x, y, 1.0).expect("a member is there");
            let outcome = desk.edit(&Edit { operation, curve, x, y });
            let shows = outcome.map(|accepted| accepted.report.removed != 0);
            assert_eq!(shows, expected, "{operation:?} at {x}, {y}");
        }
    }
}
