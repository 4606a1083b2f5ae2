//! The engine beside the oracle: the same inputs in one process, both built for release.
//!
//! `bench [subject]`: all of them, or one of images, sketches, relations, numbers,
//! shapes, magnitudes, roots, edits and replicas.

mod edits;
mod images;
mod inputs;
mod magnitudes;
mod numbers;
mod relations;
mod replicas;
mod roots;
mod samples;
mod shapes;
mod sketches;

use bench::timing;
use oracle::generate::bridges::Size;
use std::process::ExitCode;

/// What is measured, by the name that the command line takes.
const SUBJECTS: [(&str, fn()); 9] = [
    ("images", run_images),
    ("sketches", run_sketches),
    ("relations", relations::run),
    ("numbers", numbers::run),
    ("shapes", shapes::run),
    ("magnitudes", magnitudes::run),
    ("roots", roots::run),
    ("edits", edits::run),
    ("replicas", replicas::run),
];

fn run_images() {
    images::run("image of 10 curves", Size::Footbridge);
    images::run("image of 60 curves", Size::Bridge);
    images::run("largest image, 128 curves", Size::Largest);
}

fn run_sketches() {
    sketches::run("sketch of 10 curves", Size::Footbridge);
    sketches::run("sketch of 60 curves", Size::Bridge);
    sketches::run("largest sketch, 128 curves", Size::Largest);
}

fn main() -> ExitCode {
    let only = std::env::args().nth(1);
    let wanted = |subject: &str| only.as_ref().is_none_or(|only| only == subject);
    if !SUBJECTS.iter().any(|(name, _)| wanted(name)) {
        let names = SUBJECTS.map(|(name, _)| name).join(", ");
        eprintln!("bench: {:?} is no subject; these are: {names}", only.unwrap_or_default());
        return ExitCode::from(2);
    }
    timing::print_heading();
    SUBJECTS.iter().filter(|(name, _)| wanted(name)).for_each(|(_, run)| run());
    ExitCode::SUCCESS
}
