//! The footbridge of the hall, drawn from a survey: two measures of it are not those of the drawing, so
//! that nothing is extended until the members are gone that they are of. Its railing takes so many edits
//! that a wall which misses them can't catch up.

use crate::bridges::{Bridge, DECK, EAST, WEST};
use mulkefi::{Operation, Relation};

const POST: f64 = 8.0;
const HANDRAIL: f64 = DECK + 12.0;
/// What the survey has for two of the posts.
const FALSE_POST: f64 = 9.5;

pub fn footbridge() -> Bridge {
    let mut bridge = Bridge::new("footbridge");
    let deck = bridge.line((WEST, DECK), (EAST, DECK));
    let handrail = bridge.line((WEST, HANDRAIL), (EAST, HANDRAIL));
    bridge.relate(Relation::Length { line: handrail, value: EAST - WEST });
    // What 13 forbids is to extend; the deck is parted over its piers.
    for x in [100.0, 60.0, 20.0] {
        bridge.pier(x);
        bridge.then(Operation::Split, deck, (x, DECK));
    }
    let xs = [-12.0, 4.0, 20.0, 36.0, 52.0, 68.0, 84.0, 100.0, 116.0, 132.0];
    let posts = xs.map(|x| (x, bridge.line((x, DECK), (x, DECK + POST))));
    for (x, line) in posts {
        let value = if [20.0, 68.0].contains(&x) { FALSE_POST } else { POST };
        bridge.relate(Relation::Length { line, value });
    }
    let [(x, post), _, (false_x, false_post), ..] = posts;
    flower_basket(&mut bridge, 36.0);
    let bars = railing(&mut bridge, &xs);
    flower_basket(&mut bridge, 84.0);
    // From the second edit on, and until the railing lacks its last bars.
    bridge.shut = 2..bars;
    // Refused by 13, which names the first of the two false measures.
    bridge.then(Operation::Extend, post, (x, DECK + POST));
    bridge.then(Operation::Trim, false_post, (false_x, DECK + 4.0));
    // The post is gone with its measure, and 13 names the second.
    bridge.then(Operation::Extend, post, (x, DECK + POST));
    bridge
}

/// Bars between the posts, drawn through the handrail and trimmed at it. Answers how many they are.
fn railing(bridge: &mut Bridge, posts: &[f64]) -> u32 {
    let places = (1..80).map(|place| WEST + 2.0 * f64::from(place));
    let bars: Vec<f64> = places.filter(|x| !posts.contains(x)).collect();
    for x in &bars {
        let bar = bridge.line((*x, DECK), (*x, HANDRAIL + 2.5));
        bridge.then(Operation::Trim, bar, (*x, HANDRAIL + 2.0));
    }
    bars.len() as u32
}

/// A circle on the handrail, over a post, whose upper half is cut off.
fn flower_basket(bridge: &mut Bridge, x: f64) {
    let radius = 1.6;
    let basket = bridge.circle((x, HANDRAIL), radius);
    bridge.then(Operation::Trim, basket, (x, HANDRAIL + radius));
}
