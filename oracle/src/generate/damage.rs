//! Damaged images: one fault, several, or bytes that were never an image.

use super::fields::{self, any_field, edge_value, Tables};
use super::random::Random;
use crate::bytes::put;
use crate::image::*;

#[derive(Clone, Copy, Debug, PartialEq, Eq, PartialOrd, Ord)]
pub enum Damage {
    /// One field of a record at or past a limit.
    Record,
    /// One field of the header at or past a limit.
    Header,
    /// Two or three fields: faults of both sorts, in one record or in several.
    Several,
    /// Single bits or bytes changed anywhere.
    Flips,
    /// Bytes missing at the end or too many, the length field following or not.
    Cut,
    /// A count changed, with the size following it.
    Tables,
    /// A record doubled, dropped or swapped with its neighbour.
    Order,
    /// A few bytes of anything.
    Noise,
}

const SHARES: [(usize, Damage); 8] = [
    (30, Damage::Record),
    (12, Damage::Header),
    (14, Damage::Several),
    (12, Damage::Flips),
    (8, Damage::Cut),
    (6, Damage::Tables),
    (10, Damage::Order),
    (4, Damage::Noise),
];

/// Damages a good image; the result is usually refused, now and then still good.
pub fn damage(random: &mut Random, image: &mut Vec<u8>) -> Damage {
    let damage = random.weighted(&SHARES);
    let tables = Tables::of(image).expect("a good image fits its counts");
    match damage {
        Damage::Record => change_field(random, image, &tables),
        Damage::Header => {
            let field = random.pick(&fields::HEADER_FIELDS);
            let value = edge_value(random, image, &field);
            fields::set(image, &field, value);
        }
        Damage::Several => {
            for _ in 0..2 + random.below(2) {
                change_field(random, image, &tables);
            }
        }
        Damage::Flips => {
            for _ in 0..1 + random.below(3) {
                let at = random.below(image.len());
                image[at] = match random.below(3) {
                    0 => random.bits() as u8,
                    _ => image[at] ^ (1 << random.below(8)),
                };
            }
        }
        Damage::Cut => cut(random, image),
        Damage::Tables => resize_table(random, image, &tables),
        Damage::Order => reorder(random, image, &tables),
        Damage::Noise => {
            let size = random.pick(&[0, 1, 3, 4, 5, 6, 14, 15, 16, 30]);
            image.clear();
            image.extend((0..size).map(|_| random.pick(&[0, 0, 1, 2, 11, 255])));
        }
    }
    damage
}

fn change_field(random: &mut Random, image: &mut [u8], tables: &Tables) {
    let field = any_field(random, tables);
    let value = edge_value(random, image, &field);
    fields::set(image, &field, value);
}

fn cut(random: &mut Random, image: &mut Vec<u8>) {
    let size = image.len();
    let missing = random.pick(&[1, 2, 4, RELATION_SIZE, POINT_SIZE, CURVE_SIZE, size]);
    let at = random.below(size + 1);
    let length = random.pick(&[size.saturating_sub(missing), size + missing, at, 4, 5, 14]);
    image.resize(length, 0);
    if random.one_in(2) {
        fix_length(image);
    }
}

fn fix_length(image: &mut [u8]) {
    if image.len() >= LENGTH_SIZE {
        let length = (image.len() - LENGTH_SIZE) as u32;
        put(image, 0, length.to_be_bytes());
    }
}

/// Sets a count to one near its limit or its present value and resizes the table with it.
fn resize_table(random: &mut Random, image: &mut Vec<u8>, tables: &Tables) {
    const LIMITS: [usize; 3] = [512, 128, 256];
    let table = random.below(3);
    let held = tables.counts[table];
    let limit = LIMITS[table];
    let near = [held + 1, held.saturating_sub(1), 0];
    let count =
        if random.one_in(30) { random.pick(&[limit, limit + 1]) } else { random.pick(&near) };
    let end = tables.record(table, held);
    let size = Tables::SIZES[table];
    if count < held {
        image.drain(end - size * (held - count)..end);
    } else {
        let filler = vec![0; size * (count - held)];
        image.splice(end..end, filler);
    }
    put(image, Tables::COUNT_PLACES[table], (count as u16).to_be_bytes());
    fix_length(image);
}

/// Copies a record over its neighbour, or swaps the two.
fn reorder(random: &mut Random, image: &mut [u8], tables: &Tables) {
    let table = random.below(3);
    if tables.counts[table] < 2 {
        return change_field(random, image, tables);
    }
    let place = random.below(tables.counts[table] - 1);
    let size = Tables::SIZES[table];
    let start = tables.record(table, place);
    let (first, second) = image[start..start + 2 * size].split_at_mut(size);
    match random.below(4) {
        0 => first.copy_from_slice(second),
        1 => second.copy_from_slice(first),
        // The id fields alone: the order breaks, everything else stands.
        2 => first[..4].swap_with_slice(&mut second[..4]),
        _ => first.swap_with_slice(second),
    }
}
