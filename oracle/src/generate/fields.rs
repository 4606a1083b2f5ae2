//! The fields of an image, and for each the values at and just past what it may hold.

use super::numbers::EDGE_FLOATS;
use super::random::Random;
use crate::bytes::{u16_at, u32_at, u64_at};
use crate::image::*;

/// What a field is for, which decides the values worth trying in it.
#[derive(Clone, Copy, Debug, PartialEq, Eq, PartialOrd, Ord)]
pub enum Role {
    Length,
    Version,
    NextId,
    /// A table's count, with the limit.
    Count(u16),
    /// A record's own id.
    OwnId,
    /// A place for a point's or curve's id, used or not.
    Reference,
    Flags,
    Kind,
    Degree,
    Float,
}

#[derive(Clone, Copy, Debug)]
pub struct Field {
    pub at: usize,
    pub width: usize,
    pub role: Role,
}

const fn field(at: usize, width: usize, role: Role) -> Field {
    Field { at, width, role }
}

pub const HEADER_FIELDS: [Field; 6] = [
    field(0, 4, Role::Length),
    field(4, 1, Role::Version),
    field(5, 4, Role::NextId),
    field(9, 2, Role::Count(512)),
    field(11, 2, Role::Count(128)),
    field(13, 2, Role::Count(256)),
];

const POINT_FIELDS: [Field; 4] = [
    field(0, 4, Role::OwnId),
    field(4, 8, Role::Float),
    field(12, 8, Role::Float),
    field(20, 1, Role::Flags),
];

const CURVE_FIELDS: [Field; 13] = [
    field(0, 4, Role::OwnId),
    field(4, 1, Role::Kind),
    field(5, 1, Role::Flags),
    field(6, 1, Role::Degree),
    field(7, 4, Role::Reference),
    field(11, 4, Role::Reference),
    field(15, 4, Role::Reference),
    field(19, 4, Role::Reference),
    field(23, 4, Role::Reference),
    field(27, 4, Role::Reference),
    field(31, 4, Role::Reference),
    field(35, 4, Role::Reference),
    field(39, 8, Role::Float),
];

const RELATION_FIELDS: [Field; 4] = [
    field(0, 1, Role::Kind),
    field(1, 4, Role::Reference),
    field(5, 4, Role::Reference),
    field(9, 8, Role::Float),
];

/// Where the tables of an image lie, read from its counts.
#[derive(Clone, Copy)]
pub struct Tables {
    pub counts: [usize; 3],
}

impl Tables {
    pub const SIZES: [usize; 3] = [POINT_SIZE, CURVE_SIZE, RELATION_SIZE];
    pub const COUNT_PLACES: [usize; 3] = [9, 11, 13];

    /// The tables of bytes whose size is that of their counts.
    pub fn of(image: &[u8]) -> Option<Tables> {
        if image.len() < HEADER_SIZE {
            return None;
        }
        let counts = Tables::COUNT_PLACES.map(|at| usize::from(u16_at(image, at)));
        let fits = image.len() == size_of_counts(counts[0], counts[1], counts[2]);
        fits.then_some(Tables { counts })
    }

    /// Where a table begins.
    pub fn start(&self, table: usize) -> usize {
        let before = Tables::SIZES.iter().zip(&self.counts).take(table);
        HEADER_SIZE + before.map(|(size, count)| size * count).sum::<usize>()
    }

    /// The place of a record and its fields.
    pub fn record(&self, table: usize, place: usize) -> usize {
        self.start(table) + Tables::SIZES[table] * place
    }

    pub fn fields(table: usize) -> &'static [Field] {
        match table {
            0 => &POINT_FIELDS,
            1 => &CURVE_FIELDS,
            _ => &RELATION_FIELDS,
        }
    }
}

/// Some field of some record, by its place in the whole image.
pub fn any_field(random: &mut Random, tables: &Tables) -> Field {
    let table = random.below(3);
    if tables.counts[table] == 0 {
        return random.pick(&HEADER_FIELDS);
    }
    let place = random.below(tables.counts[table]);
    let inner = random.pick(Tables::fields(table));
    Field { at: tables.record(table, place) + inner.at, ..inner }
}

pub fn get(image: &[u8], field: &Field) -> u64 {
    match field.width {
        1 => u64::from(image[field.at]),
        2 => u64::from(u16_at(image, field.at)),
        4 => u64::from(u32_at(image, field.at)),
        _ => u64_at(image, field.at),
    }
}

pub fn set(image: &mut [u8], field: &Field, value: u64) {
    let bytes = value.to_be_bytes();
    image[field.at..field.at + field.width].copy_from_slice(&bytes[8 - field.width..]);
}

/// A value worth trying in a field that now holds `held`.
pub fn edge_value(random: &mut Random, image: &[u8], field: &Field) -> u64 {
    let held = get(image, field);
    let step = random.pick(&[held.wrapping_sub(1), held.wrapping_add(1)]);
    let next_id = u64::from(u32_at(image, 5));
    match field.role {
        Role::Length => random.pick(&[step, 0, 1, 10, 11, u64::from(u32::MAX), held + 256]),
        Role::Version => random.pick(&[0, 2, 3, 255]),
        Role::NextId => {
            random.pick(&[0, 1, 2, step, next_id / 2, u64::from(u32::MAX), u64::from(u32::MAX) - 1])
        }
        Role::Count(limit) => {
            let limit = u64::from(limit);
            random.pick(&[0, step, limit, limit + 1, limit - 1, u64::from(u16::MAX)])
        }
        Role::OwnId | Role::Reference => {
            let other = u64::from(some_id(random, image));
            let far = u64::from(u32::MAX);
            random.pick(&[
                0,
                step,
                other,
                other,
                other,
                next_id,
                next_id.wrapping_sub(1),
                next_id + 1,
                far,
            ])
        }
        Role::Flags => random.pick(&[0, 1, 2, 3, 4, 5, 6, 7, 8, 16, 128, 255]),
        Role::Kind => random.between(0, 11) as u64,
        Role::Degree => random.pick(&[0, 1, 2, 3, 4, 5, 6, 7, 8, 9, 255]),
        Role::Float if random.one_in(6) => step,
        Role::Float if random.one_in(6) => random.float_bits(),
        Role::Float => random.pick(&EDGE_FLOATS),
    }
}

/// The id of some point or curve of the image, 0 if it has neither.
fn some_id(random: &mut Random, image: &[u8]) -> u32 {
    let Some(tables) = Tables::of(image) else { return 0 };
    let table = random.below(2);
    match tables.counts[table] {
        0 => 0,
        count => u32_at(image, tables.record(table, random.below(count))),
    }
}
