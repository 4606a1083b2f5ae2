//! Prints an image or a message in words, or draws an image: `mulkefi-show --help` tells how.
//!
//! Bad bytes are refused by the engine; the reader of this crate says at which byte. What is shown goes to
//! standard output, and what is wrong to standard error. No file is written.

mod failure;
mod image;
mod input;
mod message;
mod options;

use failure::Failure;
use options::{Call, HELP};
use std::io::{self, Write};
use std::process::ExitCode;

fn main() -> ExitCode {
    let outcome = shown().and_then(|text| put(&text).map_err(Failure::of_writing));
    let Err(failure) = outcome else { return ExitCode::SUCCESS };
    // Where standard error can't be written either, the status alone tells.
    let _ = io::stderr().write_all(failure.text().as_bytes());
    ExitCode::from(failure.status())
}

/// What goes to standard output.
fn shown() -> Result<String, Failure> {
    match options::call(std::env::args_os().skip(1)).map_err(Failure::of_call)? {
        Call::Help => Ok(HELP.to_string()),
        Call::Image(options, file) => image::show(&options, &input::bytes(file.as_deref())?),
        Call::Message(file) => message::show(&input::bytes(file.as_deref())?),
    }
}

/// All of a text, so that a device that is full or a pipe that is closed is noticed.
fn put(text: &str) -> io::Result<()> {
    let mut output = io::stdout().lock();
    output.write_all(text.as_bytes())?;
    output.flush()
}
