//! A message in words.

use crate::failure::Failure;
use mulkefi::message::{MARK_AT, NUMBER_AT};
use mulkefi::{Drawing, Mark, Message, Refusal, Wall};

/// The engine accepts or refuses the message; the reader finds the byte at fault.
pub fn show(bytes: &[u8]) -> Result<String, Failure> {
    match (test(bytes), Message::inspect(bytes)) {
        (Ok(()), Ok(message)) => {
            Ok(format!("message of {} bytes, version {}\n{message}", bytes.len(), bytes[4]))
        }
        (engine, reader) => Err(Failure::of_bytes(engine.err(), reader.err())),
    }
}

/// Asks the engine whether bytes are a message. A wall with the mark that they bear refuses them by 1, 2 or
/// 6 where they are none; what else it says is of its own drawing and count.
fn test(bytes: &[u8]) -> Result<(), Refusal> {
    let mark = bytes.get(MARK_AT..NUMBER_AT).and_then(|mark| <[u8; 8]>::try_from(mark).ok());
    let mark = Mark::from(mark.unwrap_or_default());
    let mut wall = Wall::start(&Drawing::new().to_image(), mark)?;
    match wall.deliver(bytes) {
        Err(refusal @ (Refusal::Length | Refusal::Version | Refusal::Operation)) => Err(refusal),
        _ => Ok(()),
    }
}
