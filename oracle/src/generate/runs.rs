//! Whole runs: what a desk is asked, and what comes to the wall of the messages it wrote.

use super::messages::{damage, message_bytes};
use super::random::Random;
use super::{bridges, cuts, edits, extensions, marks};
use crate::bytes::put;
use crate::drawing::{Drawing, Id};
use crate::image;
use crate::message::{self, Edit, Mark, Message, MARK_AT, MARK_SIZE, NUMBER_AT};
use crate::program::{Parts, MAX_INPUT};
use crate::replication::Desk;

/// The most edits in a run.
pub const MOST_EDITS: usize = 40;

pub struct Run {
    pub start: Drawing,
    pub mark: Mark,
    /// What the desk is asked, refused ones too, each with the room lent for its message.
    pub calls: Vec<(Edit, usize)>,
    /// What the wall is given: the desk's messages lost, repeated, out of order, damaged, and
    /// others that the desk never wrote, under its mark or a foreign one.
    pub deliveries: Vec<Vec<u8>>,
}

impl Run {
    pub fn any(random: &mut Random) -> Run {
        let (start, first) = start(random);
        let mark = marks::mark(random);
        let mut desk = Desk::new(start.clone(), mark);
        let (mut calls, mut written) = (Vec::new(), Vec::new());
        let count = random.pick(&[0, 1, 2, 4, 8, 15, MOST_EDITS]);
        for at in 0..count {
            let edit = match first {
                Some(edit) if at == 0 => edit,
                _ => edits::edit(random, &desk.replica.drawing),
            };
            let (size, short) = (message::SIZE, message::SIZE - 1);
            let room = random.weighted(&[(40, size), (4, size + 10), (1, short), (1, 0)]);
            let mut out = vec![0; room];
            if desk.edit(&edit, &mut out).is_ok() {
                written.push(out[..message::SIZE].to_vec());
            } else if random.one_in(4) {
                // The wall is asked too, and refuses it.
                let number = desk.replica.count.saturating_add(1);
                written.push(message::to_bytes(&Message { number, edit }, mark).to_vec());
            }
            calls.push((edit, room));
        }
        let deliveries = deliveries(random, mark, written);
        Run { start, mark, calls, deliveries }
    }

    /// The input of the wall's program: the image, the mark, and the deliveries as they come.
    pub fn input(&self) -> Vec<u8> {
        let mut input = image::to_bytes(&self.start);
        input.extend(self.mark.to_be_bytes());
        self.deliveries.iter().for_each(|bytes| input.extend(bytes));
        input
    }
}

/// A drawing, with an edit of it that is worth making first.
fn start(random: &mut Random) -> (Drawing, Option<Edit>) {
    match random.below(4) {
        0 => {
            let (drawing, edit) = cuts::cut(random);
            (drawing, Some(edit))
        }
        1 => {
            let (drawing, edit) = extensions::extension(random);
            (drawing, Some(edit))
        }
        _ => (bridges::any_drawing(random), None),
    }
}

/// The messages as they were written, or some of them lost, repeated, reordered, damaged, or with
/// others between them.
fn deliveries(random: &mut Random, mark: Mark, mut messages: Vec<Vec<u8>>) -> Vec<Vec<u8>> {
    if messages.is_empty() || random.one_in(4) {
        return messages;
    }
    for _ in 0..1 + random.below(6) {
        let at = random.below(messages.len());
        let other = random.below(messages.len());
        match random.below(10) {
            0 if messages.len() > 1 => {
                messages.remove(at);
            }
            1 | 2 => messages.insert(other, messages[at].clone()),
            3 => messages.swap(at, other),
            4 => messages.insert(at, made_up(random, mark)),
            5 => messages[at] = changed(random, mark, &messages[at]),
            6 => {
                let copy = changed(random, mark, &messages[at]);
                messages.insert(at, copy);
            }
            7 | 8 => {
                let neighbours = foreign(random, mark, &messages[at]);
                messages.insert(random.pick(&[at, at + 1, other]), neighbours);
            }
            _ => messages[other..].reverse(),
        }
    }
    messages
}

/// A message that no desk wrote, of a message's size so that those behind it keep their places.
fn made_up(random: &mut Random, mark: Mark) -> Vec<u8> {
    let mark = marks::delivered(random, mark);
    let mut bytes = message_bytes(random, mark);
    bytes.resize(message::SIZE, 0);
    bytes
}

/// A message of another desk with the same number, at times any bytes behind its mark.
fn foreign(random: &mut Random, mark: Mark, bytes: &[u8]) -> Vec<u8> {
    let mut bytes = bytes.to_vec();
    bytes.resize(message::SIZE, 0);
    put(&mut bytes, MARK_AT, marks::foreign(random, mark).to_be_bytes());
    if random.one_in(4) {
        bytes[NUMBER_AT..].fill_with(|| random.bits() as u8);
    }
    bytes
}

/// A message of the same number with another edit, or with a damage that may move all behind it.
fn changed(random: &mut Random, mark: Mark, bytes: &[u8]) -> Vec<u8> {
    let mut bytes = bytes.to_vec();
    match message::read(&bytes, mark) {
        Ok(Message { number, mut edit }) if random.one_in(2) => {
            edit.curve = random.pick(&[edit.curve, edit.curve.wrapping_add(1), Id::MAX]);
            edit.x += random.pick(&[0.0, 0.5, -1.0]);
            message::to_bytes(&Message { number, edit }, mark).to_vec()
        }
        _ => {
            bytes.resize(message::SIZE, 0);
            damage(random, &mut bytes);
            if !random.one_in(8) {
                bytes.resize(message::SIZE, 0);
            }
            bytes
        }
    }
}

/// The program's input, at times with a damaged image, another mark or none, cut about the mark or
/// anywhere, with a shorter rest, or as long as it may be.
pub fn input(random: &mut Random) -> Vec<u8> {
    let run = Run::any(random);
    let mut input = run.input();
    let image_end = image::size(&run.start);
    match random.below(100) {
        0..=3 => {
            let mut image = image::to_bytes(&run.start);
            super::damage::damage(random, &mut image);
            input.splice(..image_end, image);
        }
        4 | 5 => input.truncate(random.below(input.len() + 1)),
        6..=9 => input.truncate(image_end + random.below(MARK_SIZE + message::SIZE + 2) - 1),
        10..=12 => input.extend((0..random.below(message::SIZE)).map(|_| random.bits() as u8)),
        13 | 14 => put(&mut input, image_end, marks::foreign(random, run.mark).to_be_bytes()),
        15 => drop(input.drain(image_end..image_end + MARK_SIZE)),
        16 => return up_to_the_limit(random, &run),
        _ => {}
    }
    input
}

/// Messages that change nothing before those of the run, so many that the last ones stand about
/// the end of what is read.
fn up_to_the_limit(random: &mut Random, run: &Run) -> Vec<u8> {
    let input = run.input();
    let Parts { image, mark, messages, .. } = Parts::of(&input);
    let size = message::SIZE;
    let end = MAX_INPUT + random.pick(&[0, 1, size / 2, size - 1, size, size + 1, 300, 1000]);
    let neighbours = foreign(random, run.mark, &messages[..messages.len().min(size)]);
    let filler = random.pick(&[&[0; message::SIZE][..], &[7; message::SIZE], &neighbours]);
    let fillers = filler.repeat(end.saturating_sub(input.len()) / size);
    [image, mark, &fillers, messages].concat()
}
