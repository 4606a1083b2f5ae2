//! A hall to try desk and wall in, simulated or in a browser.
//!
//! `hall [simulate] [SEED [PICTURE]]` simulates. Three bridges each have a desk and a wall. They share one
//! radio that loses, repeats and reorders, so that each wall hears every desk, and tells its own desk's
//! messages by their mark. The desks get lists of edits that make the bridges whole, then random ones. One
//! wall is behind a closed door for a while, and catches up by its desk's window when that opens; another is
//! for so long that it is started again from its desk's present image and count. At last all catch up by the
//! windows. After every delivery and every start a wall must show what its desk showed after as many edits,
//! and report what its desk reported. A table counts what happened, and a picture shows each desk beside its
//! wall. Where a desk is refused by 13 or 19, the relation that is named is highlighted, and looked for in
//! plain Rust too.
//!
//! `hall serve [--port PORT]` serves one desk and one wall to browsers on this machine: a page on which a
//! person edits and draws at the desk, sets the radio, and sees the wall follow by messages alone.

mod arguments;
mod bridges;
mod edits;
mod first_unmet;
mod footbridge;
mod free_arch;
mod hall;
mod highlight;
mod picture;
mod radio;
mod random;
mod relation_words;
mod rings;
mod serve;
mod simulation;
mod table;
mod tally;
mod whole_file;

use arguments::Command;
use hall::Hall;
use std::process::ExitCode;

fn main() -> ExitCode {
    let arguments: Vec<String> =
        std::env::args_os().skip(1).map(|one| one.to_string_lossy().into_owned()).collect();
    let arguments: Vec<&str> = arguments.iter().map(String::as_str).collect();
    match arguments::parse(&arguments) {
        Ok(Command::Help) => {
            print!("{}", arguments::USAGE);
            ExitCode::SUCCESS
        }
        Ok(Command::Simulate { seed, picture }) => simulate(seed, &picture),
        Ok(Command::Serve { port }) => match serve::run(port) {
            Ok(()) => ExitCode::SUCCESS,
            Err(sentence) => misused(&sentence),
        },
        Err(sentence) => misused(&format!("{sentence}\n\n{}", arguments::USAGE.trim_end())),
    }
}

fn misused(sentence: &str) -> ExitCode {
    eprintln!("hall: {sentence}");
    ExitCode::from(2)
}

fn simulate(seed: u64, file: &str) -> ExitCode {
    match run(seed, file) {
        Ok(true) => ExitCode::SUCCESS,
        Ok(false) => ExitCode::FAILURE,
        Err(error) => {
            eprintln!("hall: {error}");
            ExitCode::FAILURE
        }
    }
}

/// Answers whether every wall heard its neighbours, came in from behind its door and ended with its desk's
/// image, every circle that was cut as a ring, and whether every relation that was named was the first that
/// is not met.
fn run(seed: u64, file: &str) -> Result<bool, Box<dyn std::error::Error>> {
    let mut hall = Hall::new(bridges::all(), seed)?;
    hall.run()?;
    table::print(&hall);
    let picture = picture::of(&hall.simulations);
    whole_file::write(file, &picture).map_err(|error| format!("{file}: {error}"))?;
    println!("picture: {file}");
    Ok(hall.passes())
}
