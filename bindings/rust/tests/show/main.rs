//! `mulkefi-show` on good and bad images and messages, from a file and from standard input, and in wrong
//! calls.

mod calls;
mod images;
mod messages;

use mulkefi::{Drawing, Kind, Relation};
use std::ffi::OsStr;
use std::io::Write;
use std::path::PathBuf;
use std::process::{Command, Output, Stdio};

fn program() -> Command {
    Command::new(env!("CARGO_BIN_EXE_mulkefi-show"))
}

fn show<A: AsRef<OsStr>>(arguments: &[A], input: &[u8]) -> Output {
    let mut program = program()
        .args(arguments)
        .stdin(Stdio::piped())
        .stdout(Stdio::piped())
        .stderr(Stdio::piped())
        .spawn()
        .expect("the program starts");
    // A program that does not read leaves the pipe early.
    let _ = program.stdin.take().expect("its input is a pipe").write_all(input);
    program.wait_with_output().expect("the program ends")
}

fn text(bytes: &[u8]) -> &str {
    std::str::from_utf8(bytes).expect("it writes text")
}

fn example() -> Drawing {
    let mut drawing = Drawing::new();
    let [a, b, c] = [(0.0, 0.0), (4.0, 0.0), (2.0, 3.0)].map(|(x, y)| drawing.add_point(x, y));
    drawing.add_curve(Kind::Line { a, b });
    drawing.add_curve(Kind::Bezier { points: vec![a, c, b] });
    drawing
}

/// The example with two relations, of which the second is not met.
fn with_relations() -> Drawing {
    let mut drawing = example();
    drawing.relations.push(Relation::Length { line: 4, value: 4.0 });
    drawing.relations.push(Relation::Midpoint { p: 3, line: 4 });
    drawing
}

/// A folder of this test's own, which is removed with what is in it.
struct Folder(PathBuf);

impl Folder {
    fn new(name: &str) -> Folder {
        let name = format!("mulkefi-show-{name}-{}", std::process::id());
        let path = std::env::temp_dir().join(name);
        std::fs::create_dir(&path).expect("a new folder");
        Folder(path)
    }

    fn file(&self, name: impl AsRef<OsStr>, bytes: &[u8]) -> PathBuf {
        let path = self.0.join(name.as_ref());
        std::fs::write(&path, bytes).expect("a file in the folder");
        path
    }
}

impl Drop for Folder {
    fn drop(&mut self) {
        let _ = std::fs::remove_dir_all(&self.0);
    }
}
