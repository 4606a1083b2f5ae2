//! The bytes that are to be shown.

use crate::failure::Failure;
use mulkefi::{LARGEST_IMAGE, MESSAGE_SIZE};
use std::ffi::OsStr;
use std::fs::File;
use std::io::{self, Read};

/// More bytes than this are not read: a device may have no end.
const MOST_BYTES: u64 = 1 << 20;

/// All bytes of a file, or of standard input where none is named.
pub fn bytes(file: Option<&OsStr>) -> Result<Vec<u8>, Failure> {
    let name = file.map_or("standard input".to_string(), |file| format!("{file:?}"));
    let read = match file {
        Some(file) => File::open(file).and_then(at_most),
        None => at_most(io::stdin().lock()),
    };
    let bytes = read.map_err(|error| Failure::Wrong(format!("cannot read {name}: {error}")))?;
    if bytes.len() as u64 > MOST_BYTES {
        return Err(Failure::Wrong(format!(
            "{name} has more than {MOST_BYTES} bytes; \
             an image has at most {LARGEST_IMAGE}, a message {MESSAGE_SIZE}"
        )));
    }
    Ok(bytes)
}

/// One byte more than is allowed tells that there are too many.
fn at_most(source: impl Read) -> io::Result<Vec<u8>> {
    let mut bytes = Vec::new();
    source.take(MOST_BYTES + 1).read_to_end(&mut bytes)?;
    Ok(bytes)
}
