//! The bridges of the hall, as a visitor left them: hangers too long or too short, arches drawn
//! as whole circles. The script finishes them.
//!
//! Nothing is trimmed while a freeform curve is in a drawing, so the bridge with the Bézier arch is trimmed
//! before that is drawn in. Each script has an extend, or two, that a relation forbids.

use crate::footbridge::footbridge;
use crate::free_arch::free_arch;
use mulkefi::{Drawing, Edit, Id, Kind, Operation, Relation};
use std::ops::Range;

pub struct Bridge {
    pub name: &'static str,
    pub drawing: Drawing,
    pub script: Vec<Edit>,
    /// The wall's door is shut while the count of the desk's first start is one of these. The script comes to
    /// their end.
    pub shut: Range<u32>,
    pub later: Option<Later>,
}

/// Members that are drawn in before the edit at a place of the script. The desk starts anew with them.
#[derive(Clone, Copy)]
pub struct Later {
    pub place: usize,
    /// What they are, in words.
    pub name: &'static str,
    pub draw: fn(&mut Drawing),
}

pub fn all() -> [Bridge; 3] {
    [round_arch(), free_arch(), footbridge()]
}

pub const DECK: f64 = 20.0;
pub const UNDERSIDE: f64 = 18.0;
pub const WEST: f64 = -20.0;
pub const EAST: f64 = 140.0;

impl Bridge {
    /// Water and a deck's underside.
    pub fn new(name: &'static str) -> Bridge {
        let mut bridge =
            Bridge { name, drawing: Drawing::new(), script: Vec::new(), shut: 0..0, later: None };
        let water = bridge.line((WEST - 4.0, 0.0), (EAST + 4.0, 0.0));
        bridge.set_construction(water);
        bridge.line((WEST, UNDERSIDE), (EAST, UNDERSIDE));
        bridge
    }

    fn point(&mut self, (x, y): (f64, f64)) -> Id {
        self.drawing.add_point(x, y)
    }

    pub fn line(&mut self, from: (f64, f64), to: (f64, f64)) -> Id {
        let (a, b) = (self.point(from), self.point(to));
        self.drawing.add_curve(Kind::Line { a, b })
    }

    pub fn circle(&mut self, centre: (f64, f64), radius: f64) -> Id {
        let c = self.point(centre);
        self.drawing.add_curve(Kind::Circle { c, radius })
    }

    /// Counter-clockwise about a centre.
    pub fn arc(&mut self, centre: (f64, f64), from: (f64, f64), to: (f64, f64)) -> Id {
        let [c, a, b] = [centre, from, to].map(|place| self.point(place));
        self.drawing.add_curve(Kind::Arc { c, a, b })
    }

    fn set_construction(&mut self, id: Id) {
        let curve = self.drawing.curves.iter_mut().find(|curve| curve.id == id);
        curve.expect("it was just added").construction = true;
    }

    pub fn relate(&mut self, relation: Relation) {
        self.drawing.relations.push(relation);
    }

    /// The drawing with all that is drawn in later.
    pub fn whole_drawing(&self) -> Drawing {
        let mut drawing = self.drawing.clone();
        if let Some(Later { draw, .. }) = self.later {
            draw(&mut drawing);
        }
        drawing
    }

    pub fn then(&mut self, operation: Operation, curve: Id, (x, y): (f64, f64)) {
        self.script.push(Edit { operation, curve, x, y });
    }

    /// A pier of two lines from the water to the deck.
    pub fn pier(&mut self, x: f64) {
        self.line((x - 1.5, 0.0), (x - 1.5, UNDERSIDE));
        self.line((x + 1.5, 0.0), (x + 1.5, UNDERSIDE));
    }

    /// A cart on the deck: a box and two wheels whose tops it hides.
    pub fn cart(&mut self, x: f64) -> [Id; 2] {
        let (low, high) = (DECK + 2.6, DECK + 6.0);
        let corners = [(x, low), (x + 8.0, low), (x + 8.0, high), (x, high)];
        let corners = corners.map(|corner| self.point(corner));
        for side in 0..4 {
            let (a, b) = (corners[side], corners[(side + 1) % 4]);
            self.drawing.add_curve(Kind::Line { a, b });
        }
        [x + 2.0, x + 6.0].map(|hub| self.circle((hub, DECK + 1.6), 1.6))
    }
}

/// An arc over the river with hangers to the deck, four round arches on the banks.
fn round_arch() -> Bridge {
    let mut bridge = Bridge::new("round arch");
    let deck = bridge.line((WEST, DECK), (EAST, DECK));
    [18.5, 101.5].into_iter().for_each(|x| bridge.pier(x));
    let rib = bridge.arc((60.0, -10.0), (100.0, DECK), (20.0, DECK));
    let hangers = [30.0, 40.0, 50.0, 60.0, 70.0, 80.0, 90.0].map(|x: f64| match x as i64 {
        50..=70 => (x, bridge.line((x, DECK), (x, 48.0))),
        40 | 80 => (x, bridge.line((x, 13.0), (x, 30.0))),
        _ => (x, bridge.line((x, DECK), (x, 24.0))),
    });
    for (x, hanger) in hangers {
        match x as i64 {
            50..=70 => bridge.then(Operation::Trim, hanger, (x, 46.0)),
            40 | 80 => {
                bridge.then(Operation::Extend, hanger, (x, 30.0));
                bridge.then(Operation::Trim, hanger, (x, 14.0));
                bridge.then(Operation::Trim, hanger, (x, 19.0));
            }
            _ => bridge.then(Operation::Extend, hanger, (x, 24.0)),
        }
    }
    [-10.5, 7.5, 112.5, 130.5].into_iter().for_each(|x| bank_arch(&mut bridge, x));
    [-16.0, 136.0].into_iter().for_each(|x| round_lamp(&mut bridge, x));
    let wheels = bridge.cart(41.0);
    for (hub, wheel) in [43.0, 47.0].into_iter().zip(wheels) {
        bridge.then(Operation::Trim, wheel, (hub, DECK + 3.2));
    }
    bridge.then(Operation::Split, deck, (60.0, DECK));
    bridge.then(Operation::Split, rib, (60.0, 40.0));
    bridge.relate(Relation::Length { line: deck, value: EAST - WEST });
    water_gauge(&mut bridge, 65.0);
    // While most of the hangers and the first of the bank arches are cut.
    bridge.shut = 4..14;
    bridge
}

/// A staff in the river whose height is measured twice. Extended up to the deck it would have another,
/// and 19 names the first of the two measures.
fn water_gauge(bridge: &mut Bridge, x: f64) {
    let height = 6.0;
    let (a, b) = (bridge.point((x, 0.0)), bridge.point((x, height)));
    let staff = bridge.drawing.add_curve(Kind::Line { a, b });
    bridge.relate(Relation::Distance { p: a, q: b, value: height });
    bridge.relate(Relation::Length { line: staff, value: height });
    bridge.then(Operation::Extend, staff, (x, height));
}

/// A circle whose lower half is cut off at the springing.
fn bank_arch(bridge: &mut Bridge, x: f64) {
    let (radius, springing) = (7.5, 8.0);
    let course = bridge.line((x - radius - 0.7, springing), (x + radius + 0.7, springing));
    bridge.set_construction(course);
    let ring = bridge.circle((x, springing), radius);
    bridge.line((x - radius, 0.0), (x - radius, springing));
    bridge.line((x + radius, 0.0), (x + radius, springing));
    bridge.then(Operation::Trim, ring, (x, springing - radius));
}

/// A post that is drawn into its lamp and trimmed at the glass.
fn round_lamp(bridge: &mut Bridge, x: f64) {
    let post = bridge.line((x, DECK), (x, 31.0));
    bridge.circle((x, 31.0), 2.0);
    bridge.then(Operation::Trim, post, (x, 30.5));
}

#[cfg(test)]
mod tests {
    use super::*;
    use mulkefi::{read, Desk, Mark};

    /// The refusals of a script's edits, by number and place, and how many relations the desk then has.
    fn refusals(bridge: &Bridge) -> (Vec<(u16, Option<usize>)>, usize) {
        let start = |drawing: &Drawing, mark| Desk::start(&drawing.to_image(), Mark::from(mark));
        let mut desk = start(&bridge.drawing, 1).expect("a bridge is a good image");
        let drawing_of = |desk: &Desk| read(desk.image()).expect("a desk holds a good image");
        let mut refusals = Vec::new();
        for (place, edit) in bridge.script.iter().enumerate() {
            if let Some(later) = bridge.later.filter(|later| later.place == place) {
                let mut drawing = drawing_of(&desk);
                (later.draw)(&mut drawing);
                desk = start(&drawing, 2).expect("it is good with what is drawn in");
            }
            let refused = desk.edit(edit).err();
            refusals.extend(refused.map(|refusal| (refusal.number(), refusal.place())));
        }
        (refusals, drawing_of(&desk).relations.len())
    }

    #[test]
    fn scripts_are_applied_but_for_what_they_say() {
        // The deck's length is at place 0, the gauge's two measures are behind it.
        assert_eq!(refusals(&round_arch()).0, [(19, Some(1))]);
        let (refused, relations) = refusals(&free_arch());
        assert_eq!(refused, [(11, None), (11, None), (19, Some(relations))]);
        // The handrail's length is at place 0, the posts' are behind it.
        assert_eq!(refusals(&footbridge()).0, [(13, Some(3)), (13, Some(5))]);
    }
}
