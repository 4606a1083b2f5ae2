//! Tests that every call's answer passes.

use oracle::image::HEADER_SIZE;
use oracle::message::{self, Mark, SIZE};

/// Count, image's length, removed curve, its start and its end.
pub const ANSWER: usize = 5;
/// What the answer's memory holds before a call.
pub const ANSWER_BEFORE: [u8; 4 * ANSWER] = [0x3c; 4 * ANSWER];
pub const MESSAGE_SIZE: usize = SIZE;
/// The number of a message with another mark.
const FOREIGN: u32 = 28;

/// A known refusal's number, and no place.
pub fn number(answer: u32) -> Result<u32, String> {
    match answer {
        0..=25 => Ok(answer),
        _ => Err(format!("answer {answer:#x} is no refusal")),
    }
}

/// The same of an edit of an image, where 13 and 19 come with a place: of one of the image's relations,
/// or with 19 of the pin behind them.
pub fn edit_number(answer: u32, image: &[u8]) -> Result<u32, String> {
    let (number, place) = (answer & 0xffff, (answer >> 16) as usize);
    let places = match number {
        13 => relations(image),
        19 => relations(image) + 1,
        _ => return self::number(answer),
    };
    match place < places {
        true => Ok(number),
        false => Err(format!("{number} with place {place}, of {places}")),
    }
}

/// The same of a delivery to a wall with this mark. It is refused by a number of images or of messages, 28
/// among them, just where the plain reading is.
pub fn delivery_number(
    answer: u32,
    image: &[u8],
    mark: Mark,
    message: &[u8],
) -> Result<u32, String> {
    let number = if answer == FOREIGN { answer } else { edit_number(answer, image)? };
    match (plain_reading(image, mark, message), number) {
        (Some(expected), _) if expected == number => Ok(number),
        (None, 0 | 7..=25) => Ok(number),
        (expected, _) => {
            let expected = expected.unwrap_or(0);
            Err(format!("the engine says {number}, the plain reading {expected}"))
        }
    }
}

/// The number by which readers in Rust refuse the image, or else the message.
fn plain_reading(image: &[u8], mark: Mark, message: &[u8]) -> Option<u32> {
    let of_image = mulkefi::read(image).err().map(|fault| fault.refusal.number().into());
    let of_message = || message::read(message, mark).err().map(|refusal| refusal.number().into());
    of_image.or_else(of_message)
}

/// How many relations an image has; 0 where bytes are too few for its header.
fn relations(image: &[u8]) -> usize {
    image
        .get(13..HEADER_SIZE)
        .map_or(0, |count| usize::from(u16::from_be_bytes([count[0], count[1]])))
}

pub fn words(bytes: &[u8]) -> Vec<u32> {
    let words = bytes.as_chunks().0.iter();
    words.map(|word| u32::from_ne_bytes(*word)).collect()
}
