//! Writes the recorded answers, one file a subject, into the folder given as argument.

use oracle::recording::{self, List, SEED};
use oracle::refusal::OUTCOMES;
use oracle::upstream;
use std::path::Path;
use std::process::ExitCode;

fn main() -> ExitCode {
    let Some(folder) = std::env::args().nth(1) else {
        eprintln!("record FOLDER: the folder to write to is missing");
        return ExitCode::from(2);
    };
    match record(Path::new(&folder)) {
        Ok(()) => ExitCode::SUCCESS,
        Err(sentence) => {
            eprintln!("record: {sentence}");
            ExitCode::FAILURE
        }
    }
}

fn record(folder: &Path) -> Result<(), String> {
    std::fs::create_dir_all(folder).map_err(|error| format!("{}: {error}", folder.display()))?;
    write(folder, "images.bin", &recording::images(SEED))?;
    write(folder, "messages.bin", &recording::messages(SEED))?;
    write(folder, "square_roots.bin", &recording::square_roots(SEED))?;
    write(folder, "magnitudes.bin", &recording::magnitudes(SEED))?;
    write(folder, "catch_ups.bin", &recording::catch_ups(SEED))?;
    if !upstream::PRESENT {
        println!("roots.bin, edits.bin, runs.bin: the upstream source is absent, skipped");
        return Ok(());
    }
    write(folder, "roots.bin", &recording::root_searches(SEED))?;
    let edits = recording::edits(SEED);
    write(folder, "edits.bin", &edits)?;
    print_coverage(&edits);
    let runs = recording::runs(SEED);
    write(folder, "runs.bin", &runs)?;
    println!("  deliveries: {:?}", recording::run_coverage(&runs));
    Ok(())
}

/// One line for each operation and kind of target: the outcomes, each with its number of entries.
fn print_coverage(edits: &List<()>) {
    for ((operation, kind), outcomes) in recording::edit_coverage(edits) {
        print!("  operation {operation}, kind {kind}:");
        outcomes.iter().for_each(|(outcome, count)| print!(" {outcome}:{count}"));
        println!();
    }
}

fn write<T>(folder: &Path, name: &str, list: &List<T>) -> Result<(), String> {
    let file = folder.join(name);
    std::fs::write(&file, list.bytes()).map_err(|error| format!("{}: {error}", file.display()))?;
    let mut counts = [0; OUTCOMES];
    for outcome in list.outcomes() {
        counts[usize::from(*outcome)] += 1;
    }
    print!("{name}: {} entries, {} bytes; outcomes", list.len(), list.bytes().len());
    for (number, count) in counts.iter().enumerate().filter(|(_, count)| **count > 0) {
        print!(" {number}:{count}");
    }
    println!();
    Ok(())
}
