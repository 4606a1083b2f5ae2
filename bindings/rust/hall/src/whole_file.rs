//! Files that are written whole or not at all.

use std::fs;
use std::io;
use std::path::{Path, PathBuf};

/// Writes beside the file and renames, so that no half of it is left. What is there and is no regular file,
/// such as a pipe, is written into.
pub fn write(file: &str, text: &str) -> io::Result<()> {
    let file = Path::new(file);
    if fs::metadata(file).is_ok_and(|found| !found.is_file()) {
        return fs::write(file, text);
    }
    let beside = beside(file)?;
    let written = fs::write(&beside, text).and_then(|()| fs::rename(&beside, file));
    if written.is_err() {
        // The error of the writing is the one to tell.
        let _ = fs::remove_file(&beside);
    }
    written
}

/// A name in the same folder that no other run of the program uses.
fn beside(file: &Path) -> io::Result<PathBuf> {
    let name = file.file_name().ok_or(io::ErrorKind::InvalidFilename)?;
    let mut beside = name.to_os_string();
    beside.push(format!(".{}.part", std::process::id()));
    Ok(file.with_file_name(beside))
}

#[cfg(test)]
mod tests {
    use super::*;

    #[test]
    fn a_file_is_replaced_and_nothing_is_left_beside_it() {
        let folder = std::env::temp_dir().join(format!("hall-file-{}", std::process::id()));
        fs::create_dir(&folder).expect("a folder of this test's own");
        let file = folder.join("picture.svg");
        let name = file.to_str().expect("a name in Unicode");
        for text in ["one", "two"] {
            write(name, text).expect("the folder is there");
            assert_eq!(fs::read_to_string(&file).expect("it was written"), text);
        }
        assert_eq!(fs::read_dir(&folder).expect("the folder").count(), 1);
        let missing = folder.join("missing").join("picture.svg");
        assert!(write(missing.to_str().expect("a name in Unicode"), "one").is_err());
        assert!(write("", "one").is_err());
        fs::remove_dir_all(&folder).expect("the folder is this test's own");
    }
}
