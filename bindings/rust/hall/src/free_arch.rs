//! The free arch of the hall. What sticks out of it is cut away first; then the Bézier arch and the conics are
//! drawn in, beside which nothing is trimmed, and all that is too short is extended to them.

use crate::bridges::{Bridge, Later, DECK, EAST, UNDERSIDE, WEST};
use mulkefi::{Drawing, Kind, Operation};

/// Where members stand that are extended later.
const HANGERS: [f64; 6] = [35.0, 45.0, 55.0, 65.0, 75.0, 85.0];
const SPANDRELS: [f64; 2] = [16.0, 104.0];
const BANKS: [f64; 2] = [-6.0, 126.0];
const LAMPS: [f64; 2] = [-16.0, 136.0];

pub fn free_arch() -> Bridge {
    let mut bridge = Bridge::new("free arch");
    let deck = bridge.line((WEST - 5.0, DECK), (EAST + 5.0, DECK));
    for x in [WEST, EAST] {
        bridge.line((x, 0.0), (x, DECK + 3.0));
    }
    for x in [WEST - 3.0, EAST + 3.0] {
        bridge.then(Operation::Trim, deck, (x, DECK));
    }
    let hangers = HANGERS.map(|x| (x, bridge.line((x, 11.0), (x, 25.0))));
    for (x, hanger) in hangers {
        bridge.then(Operation::Trim, hanger, (x, 12.0));
        bridge.then(Operation::Trim, hanger, (x, 19.0));
    }
    let wheels = bridge.cart(56.0);
    for (hub, wheel) in [58.0, 62.0].into_iter().zip(wheels) {
        bridge.then(Operation::Trim, wheel, (hub, DECK + 3.2));
    }
    let columns = BANKS.map(|bank| [bank - 5.0, bank, bank + 5.0]);
    let columns = columns.as_flattened().iter();
    let columns: Vec<_> = columns.map(|x| (*x, bridge.line((*x, 16.0), (*x, 24.0)))).collect();
    for (x, column) in &columns {
        bridge.then(Operation::Trim, *column, (*x, 23.0));
    }
    bridge.shut = 3..15;
    bridge.later = Some(Later { place: bridge.script.len(), name: "arches", draw: arches });

    for (x, hanger) in hangers {
        bridge.then(Operation::Extend, hanger, (x, 25.0));
    }
    for (x, column) in columns {
        bridge.then(Operation::Extend, column, (x, 16.0));
    }
    for x in SPANDRELS {
        let column = bridge.line((x, UNDERSIDE), (x, 16.5));
        bridge.then(Operation::Extend, column, (x, 16.5));
    }
    for x in LAMPS {
        lamp(&mut bridge, x);
    }
    bridge.then(Operation::Split, deck, (60.0, DECK));
    signpost(&mut bridge, -2.0);
    bridge
}

/// A Bézier arch through the deck, and conics on the banks.
fn arches(drawing: &mut Drawing) {
    let feet = [(8.0, 0.0), (36.0, 56.0), (84.0, 56.0), (112.0, 0.0)];
    let points = feet.map(|(x, y)| drawing.add_point(x, y)).to_vec();
    drawing.add_curve(Kind::Bezier { points });
    for x in BANKS {
        let corners = [(x - 11.0, 0.0), (x, 24.0), (x + 11.0, 0.0)];
        let [a, apex, b] = corners.map(|(x, y)| drawing.add_point(x, y));
        drawing.add_curve(Kind::Conic { a, apex, b, rho: 0.55 });
    }
}

/// A post that is extended up to its lamp. That the lamp is trimmed, or split, is refused by 11.
fn lamp(bridge: &mut Bridge, x: f64) {
    let post = bridge.line((x, DECK), (x, 25.0));
    let lamp = bridge.circle((x, 31.0), 2.0);
    bridge.then(Operation::Extend, post, (x, 25.0));
    let operation = if x < 0.0 { Operation::Trim } else { Operation::Split };
    bridge.then(operation, lamp, (x, 33.0));
}

/// A post with an arm that a visitor put next to its top: nearer than 0.000001, so that the arm, extended,
/// is pinned to the top, but not within 0.0000001, so that the pin is not met. 19 names the pin.
fn signpost(bridge: &mut Bridge, x: f64) {
    let height = DECK + 12.0;
    bridge.line((x, DECK), (x, height + 5e-7));
    let arm = bridge.line((x + 8.0, height), (x + 3.0, height));
    bridge.then(Operation::Extend, arm, (x + 3.0, height));
}
