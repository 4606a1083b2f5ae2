//! Writes the pictures of `docs/FORMATS.md` into a folder, from what the engine answers:
//!
//! ```text
//! cargo run --example formats_pictures -- ../../docs/formats
//! ```

mod pictures;

use std::path::Path;
use std::process::ExitCode;
use std::{env, fs, io};

fn main() -> ExitCode {
    let mut arguments = env::args_os().skip(1);
    let (Some(folder), None) = (arguments.next(), arguments.next()) else {
        eprintln!("formats_pictures: name one folder to write the pictures into");
        return ExitCode::from(2);
    };
    for (name, picture) in pictures::all() {
        let file = Path::new(&folder).join(name);
        if let Err(error) = write(&file, &picture) {
            eprintln!("formats_pictures: {} is not written: {error}", file.display());
            return ExitCode::FAILURE;
        }
        println!("{}", file.display());
    }
    ExitCode::SUCCESS
}

/// A file is there whole or as it was.
fn write(file: &Path, text: &str) -> io::Result<()> {
    let beside = file.with_extension(format!("{}.part", std::process::id()));
    fs::write(&beside, text).and_then(|()| fs::rename(&beside, file)).inspect_err(|_| {
        // What is left of it, if anything is.
        let _ = fs::remove_file(&beside);
    })
}
