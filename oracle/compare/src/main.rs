//! Feeds generated inputs to the engine's static library and to the oracle and compares every
//! answer, every byte written and every byte left alone.
//!
//! `compare [images] [messages] [seed] [figures] [square roots] [polynomials] [relations] [edits] [runs]
//! [lists] [catch-ups]`: how many of each, and where the generator starts. So many edits are trims and splits, as many
//! again extends and twice as many sums of both.

#[cfg(test)]
mod catch_up_faults;
mod catch_ups;
mod copies;
mod counts;
mod crossings;
mod edit_rows;
mod edits;
mod hex;
mod images;
mod magnitudes;
#[cfg(test)]
mod mark_faults;
mod marks;
mod measures;
mod messages;
mod number;
mod number_pairs;
mod numerals;
#[cfg(test)]
mod place_faults;
mod places;
mod relations;
mod roots;
mod runs;
mod shrink;
mod simpler;
mod sketches;
mod square_roots;
mod subject;
mod sums;

use oracle::{arguments, image, message, upstream};
use std::process::ExitCode;

const CASES: u64 = 200_000;
/// Over a million of every kind and of every pair of kinds.
const FIGURES: u64 = 4_100_000;
const ROOTS: u64 = 10_000_000;
const RELATIONS: u64 = 1_000_000;
const POLYNOMIALS: u64 = 320_000;
const EDITS: u64 = 300_000;
const RUNS: u64 = 50_000;
const LISTS: u64 = 400_000;
const CATCH_UPS: u64 = 400_000;

fn versions() -> Result<(), String> {
    let (oracle, engine) =
        (u32::from(image::VERSION) * 256 + u32::from(message::VERSION), engine::versions());
    if oracle == engine {
        Ok(())
    } else {
        Err(format!("versions differ: oracle {oracle:04x}, engine {engine:04x}"))
    }
}

fn compare_all() -> Result<(), String> {
    let cases = |place, default| arguments::number(place, default) as usize;
    let (image_cases, message_cases) = (cases(1, CASES), cases(2, CASES));
    let seed = arguments::number(3, 1);
    let (figure_cases, root_cases) = (cases(4, FIGURES), cases(5, ROOTS));
    let relation_cases = cases(7, RELATIONS);
    versions()?;
    subject::run::<square_roots::SquareRoots>(root_cases, seed)?;
    subject::run::<number_pairs::NumberPairs>(figure_cases, seed)?;
    subject::run::<measures::Measures>(figure_cases, seed)?;
    subject::run::<crossings::Crossings>(figure_cases, seed)?;
    subject::run::<images::Images>(image_cases, seed)?;
    subject::run::<sketches::Sketches>(image_cases, seed)?;
    subject::run::<relations::Relations>(relation_cases, seed)?;
    subject::run::<messages::Messages<messages::Engine>>(message_cases, seed)?;
    subject::run::<catch_ups::CatchUps<catch_ups::Engine>>(cases(11, CATCH_UPS), seed)?;
    subject::run::<magnitudes::Magnitudes<magnitudes::Engine>>(cases(10, LISTS), seed)?;
    if !upstream::PRESENT {
        println!("roots and edits: the upstream source is absent, skipped");
        return Ok(());
    }
    subject::run::<roots::Roots>(cases(6, POLYNOMIALS), seed)?;
    let edit_cases = cases(8, EDITS);
    edits::run(edit_cases, seed)?;
    subject::run::<sums::Sums<sums::Engine>>(2 * edit_cases, seed)?;
    subject::run::<runs::Runs<runs::Engine>>(cases(9, RUNS), seed)?;
    Ok(())
}

fn main() -> ExitCode {
    match compare_all() {
        Ok(()) => ExitCode::SUCCESS,
        Err(difference) => {
            eprintln!("{difference}");
            ExitCode::FAILURE
        }
    }
}
