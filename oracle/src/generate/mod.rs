//! Seeded inputs: drawings, images good and damaged, messages, windows, lists of edits and of numbers,
//! figures and patterns.

pub mod arches;
pub mod bridges;
pub mod calls;
pub mod catch_ups;
pub mod coverage;
pub mod crowd;
pub mod cuts;
pub mod cutters;
pub mod damage;
pub mod edits;
pub mod extensions;
pub mod fields;
pub mod figures;
pub mod frame;
pub mod lasting;
pub mod lists;
pub mod marks;
pub mod messages;
pub mod near_misses;
pub mod near_relations;
pub mod numbers;
pub mod obstacles;
pub mod patterns;
pub mod polynomials;
pub mod random;
pub mod relations;
pub mod rings;
pub mod runs;
pub mod scene;
pub mod several_unmet;
pub mod targets;
pub mod windows;

use crate::image;
use random::Random;

/// The bytes of an image, about half of them damaged.
pub fn image_bytes(random: &mut Random) -> Vec<u8> {
    let mut bytes = image::to_bytes(&bridges::any_drawing(random));
    if random.one_in(2) {
        damage::damage(random, &mut bytes);
    }
    bytes
}
