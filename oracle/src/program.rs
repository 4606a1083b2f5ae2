//! The wall's program: an image, a mark and messages in, the last image out.

use crate::edit::Refused;
use crate::image::{self, LENGTH_SIZE};
use crate::message::{self, Mark, MARK_SIZE};
use crate::refusal::Refusal;
use crate::replication::{Delivery, Replica};

/// More input than this is not looked at.
pub const MAX_INPUT: usize = 65_536;

/// The bytes that the program writes for its input.
pub fn run(input: &[u8]) -> Vec<u8> {
    run_watched(input, |_, _| ())
}

/// `run`, with the bytes and the outcome of each delivery handed to `watch` on the way.
pub fn run_watched(
    input: &[u8],
    mut watch: impl FnMut(&[u8], Result<Delivery, Refused>),
) -> Vec<u8> {
    let Parts { image, mark, messages, .. } = Parts::of(input);
    let drawing = match image::read(image) {
        Ok(drawing) => drawing,
        Err(refusal) => return refused(refusal),
    };
    let Ok(mark) = mark.try_into() else {
        return image.to_vec();
    };
    let mut wall = Replica::new(drawing, Mark::from_be_bytes(mark));
    for bytes in messages.chunks(message::SIZE) {
        // A refused message is passed over.
        watch(bytes, wall.deliver(bytes));
    }
    image::to_bytes(&wall.drawing)
}

/// An input taken apart as the program does it.
pub struct Parts<'a> {
    pub image: &'a [u8],
    /// Eight bytes, or fewer where the input ends there.
    pub mark: &'a [u8],
    pub messages: &'a [u8],
    /// What is not looked at.
    pub beyond: &'a [u8],
}

impl Parts<'_> {
    pub fn of(input: &[u8]) -> Parts<'_> {
        let (input, beyond) = input.split_at(input.len().min(MAX_INPUT));
        let (image, behind) = input.split_at(image_end(input));
        let (mark, messages) = behind.split_at(behind.len().min(MARK_SIZE));
        Parts { image, mark, messages, beyond }
    }
}

/// Where the image of an input ends by its length field, or the input does if that comes first.
fn image_end(input: &[u8]) -> usize {
    let Some(length) = input.first_chunk::<LENGTH_SIZE>() else {
        return input.len();
    };
    (LENGTH_SIZE + u32::from_be_bytes(*length) as usize).min(input.len())
}

fn refused(refusal: Refusal) -> Vec<u8> {
    vec![0, 0, 0, 2, image::VERSION, refusal.number()]
}
