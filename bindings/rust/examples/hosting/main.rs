//! Desks and walls over a simulated radio, with their states in files: `hosting FOLDER [SEED]`. Two halls
//! run at once, each on a thread. `docs/HOSTING.md` goes through this program step by step, and its Rust is
//! the lines between `step: NAME` and `end` in these files.

mod desk;
mod radio;
mod state;
mod story;
mod wall;

use mulkefi::{Versions, INTERFACE, VERSIONS};
use state::Fallible;
use std::path::Path;
use std::process::ExitCode;
use std::thread::{Builder, JoinHandle};
use story::Hall;

const STACK_SIZE: usize = 128 * 1024;

// step: versions
/// Shows what was linked, and whether this crate may use it.
fn check_library() -> bool {
    let show = |who: &str, interface: u32, Versions { image, message }: Versions| {
        println!("{who}: interface {interface}, images {image}, messages {message}");
    };
    let (interface, versions) = (mulkefi::interface(), mulkefi::versions());
    show(&format!("mulkefi {}", mulkefi::library_version()), interface, versions);
    let is_ours = interface == INTERFACE && versions == VERSIONS;
    if !is_ours {
        show("this host needs", INTERFACE, VERSIONS);
    }
    is_ours
}
// end

// step: thread
/// A thread for one hall: its desk's calls come one after the other, and other halls have other memory.
fn start_thread(hall: Hall) -> std::io::Result<JoinHandle<Fallible<String>>> {
    Builder::new().stack_size(STACK_SIZE).spawn(move || story::run(hall))
}
// end

fn run_halls(folder: &Path, seed: u64) -> Fallible<()> {
    let mut threads = Vec::new();
    for (name, seed) in [("hall-1", seed), ("hall-2", seed.wrapping_add(1))] {
        let folder = folder.join(name);
        std::fs::create_dir(&folder).map_err(|error| {
            format!("{} can't be made, give a folder that is empty: {error}", folder.display())
        })?;
        threads.push((name, start_thread(Hall::new(&folder, seed))?));
    }
    for (name, thread) in threads {
        let shown = thread.join().map_err(|_| format!("{name} ended early"))?;
        print!("\n{name}\n{}", shown.map_err(|sentence| format!("{name}: {sentence}"))?);
    }
    Ok(())
}

fn main() -> ExitCode {
    let arguments: Vec<String> = std::env::args().skip(1).collect();
    let seed = arguments.get(1).map_or(Ok(1), |seed| seed.parse());
    let (Some(folder), Ok(seed), 1..=2) = (arguments.first(), seed, arguments.len()) else {
        eprintln!("usage: hosting FOLDER [SEED]");
        return ExitCode::from(2);
    };
    if !check_library() {
        return ExitCode::FAILURE;
    }
    if let Err(sentence) = run_halls(Path::new(folder), seed) {
        eprintln!("failed: {sentence}");
        return ExitCode::FAILURE;
    }
    println!("\nboth halls ended with the same image at desk and wall");
    ExitCode::SUCCESS
}
