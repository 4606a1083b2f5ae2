//! Greedy shrinking: every step that keeps the difference is taken, until none is left.

use oracle::bytes::put;
use oracle::generate::fields::Tables;
use oracle::image::LENGTH_SIZE;

/// Shrinks an image by whole records, then as plain bytes.
pub fn image(bytes: &[u8], differs: impl Fn(&[u8]) -> bool) -> Vec<u8> {
    until_stable(bytes.to_vec(), |bytes| {
        for table in (0..3).rev() {
            drop_records(bytes, table, &differs);
        }
        drop_tail(bytes, &differs);
        lower_values(bytes, &differs);
    })
}

/// Shrinks an image by whole records alone.
pub fn records(bytes: &[u8], differs: impl Fn(&[u8]) -> bool) -> Vec<u8> {
    until_stable(bytes.to_vec(), |bytes| {
        for table in (0..3).rev() {
            drop_records(bytes, table, &differs);
        }
    })
}

/// Shrinks bytes by their number and values.
pub fn bytes(bytes: &[u8], differs: impl Fn(&[u8]) -> bool) -> Vec<u8> {
    until_stable(bytes.to_vec(), |bytes| {
        drop_tail(bytes, &differs);
        lower_values(bytes, &differs);
    })
}

/// Passes over bytes until one changes nothing.
pub fn until_stable(mut bytes: Vec<u8>, mut pass: impl FnMut(&mut Vec<u8>)) -> Vec<u8> {
    loop {
        let before = bytes.clone();
        pass(&mut bytes);
        if bytes == before {
            return bytes;
        }
    }
}

/// Drops runs of records of one table, long runs first.
fn drop_records(bytes: &mut Vec<u8>, table: usize, differs: &impl Fn(&[u8]) -> bool) {
    let Some(tables) = Tables::of(bytes) else { return };
    let mut run = tables.counts[table];
    while run > 0 {
        let mut place = 0;
        while let Some(fewer) = without_records(bytes, table, place, run) {
            if differs(&fewer) {
                *bytes = fewer;
            } else {
                place += run;
            }
        }
        run /= 2;
    }
}

/// Drops runs of entries of a list, long runs first.
pub fn drop_runs<T: Clone>(list: &mut Vec<T>, differs: impl Fn(&[T]) -> bool) {
    let mut run = list.len();
    while run > 0 {
        let mut place = 0;
        while place + run <= list.len() {
            let fewer = [&list[..place], &list[place + run..]].concat();
            if differs(&fewer) {
                *list = fewer;
            } else {
                place += run;
            }
        }
        run /= 2;
    }
}

/// The image without `run` records from `place` on, its count and length following.
fn without_records(bytes: &[u8], table: usize, place: usize, run: usize) -> Option<Vec<u8>> {
    let tables = Tables::of(bytes)?;
    let left = tables.counts[table].checked_sub(place + run)? + place;
    let mut fewer = bytes.to_vec();
    fewer.drain(tables.record(table, place)..tables.record(table, place + run));
    put(&mut fewer, Tables::COUNT_PLACES[table], (left as u16).to_be_bytes());
    let length = (fewer.len() - LENGTH_SIZE) as u32;
    put(&mut fewer, 0, length.to_be_bytes());
    Some(fewer)
}

fn drop_tail(bytes: &mut Vec<u8>, differs: &impl Fn(&[u8]) -> bool) {
    let mut run = bytes.len();
    while run > 0 {
        while run <= bytes.len() && differs(&bytes[..bytes.len() - run]) {
            bytes.truncate(bytes.len() - run);
        }
        run /= 2;
    }
}

/// Sets each byte to 0, to half of what it is, or to one less.
fn lower_values(bytes: &mut [u8], differs: &impl Fn(&[u8]) -> bool) {
    for at in 0..bytes.len() {
        loop {
            let held = bytes[at];
            let lower = [0, held / 2, held.wrapping_sub(1)].into_iter().filter(|v| *v < held);
            let kept = lower.into_iter().find(|value| {
                bytes[at] = *value;
                differs(bytes)
            });
            bytes[at] = kept.unwrap_or(held);
            if kept.is_none() {
                break;
            }
        }
    }
}
