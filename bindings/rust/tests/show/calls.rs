//! Help, wrong calls, and files and outputs that fail.

use crate::{example, program, show, text, Folder};
use std::ffi::OsStr;
use std::fs::File;
use std::os::unix::ffi::OsStrExt;
use std::process::Stdio;

/// The sentence of a wrong call, with its status and nothing shown.
#[track_caller]
fn check_wrong<A: AsRef<OsStr>>(arguments: &[A], sentence: &str) {
    let output = show(arguments, &example().to_image());
    let expected = format!("mulkefi-show: {sentence}\n");
    assert_eq!((output.status.code(), text(&output.stderr)), (Some(2), expected.as_str()));
    assert!(output.stdout.is_empty());
}

#[test]
fn help_is_shown() {
    let expected = "mulkefi-show prints an image or a message in words, or draws an image.\n";
    for arguments in [&["--help"][..], &["-h"], &["--svg", "-h", "--unknown"]] {
        let output = show(arguments, &[]);
        assert_eq!((output.status.code(), text(&output.stderr)), (Some(0), ""));
        let help = text(&output.stdout);
        assert!(help.starts_with(expected), "{help}");
        let named = ["--svg", "--ids", "--relation PLACE", "--message", "-h, --help", "--  "];
        assert!(named.iter().all(|option| help.contains(&format!("\n  {option} "))), "{help}");
        let statuses = (0..4).all(|status| help.contains(&format!("\n  {status}  ")));
        assert!(statuses && help.contains("\nusage: "), "{help}");
        assert!(help.lines().all(|line| line.len() <= 80), "{help}");
    }
}

#[test]
fn wrong_options_are_told() {
    let see = "(mulkefi-show --help lists the options)";
    let wants = "--relation wants a place, which is a number from 0";
    let huge = "99999999999999999999";
    let cases: [(&[&str], String); 16] = [
        (&["--png"], format!("unknown option \"--png\" {see}")),
        (&["-x"], format!("unknown option \"-x\" {see}")),
        (&["--svg=1"], format!("unknown option \"--svg=1\" {see}")),
        (&["--png", "--help"], format!("unknown option \"--png\" {see}")),
        (&["--relation"], format!("{wants}: nothing follows it {see}")),
        (&["--relation", "-1"], format!("{wants}: \"-1\" is none {see}")),
        (&["--relation", "--svg"], format!("{wants}: \"--svg\" is none {see}")),
        (&["--relation", ""], format!("{wants}: \"\" is none {see}")),
        (&["--relation", "1.0"], format!("{wants}: \"1.0\" is none {see}")),
        (&["--relation", huge], format!("{wants}: \"{huge}\" is none {see}")),
        (&["--relation", "0", "--relation", "1"], format!("--relation is given twice {see}")),
        (&["one", "two"], format!("one file is shown, not both \"one\" and \"two\" {see}")),
        (&["--ids"], format!("--ids is for a picture, and --svg is not given {see}")),
        (&["--message", "--svg"], format!("--svg is for images, and --message is given {see}")),
        (
            &["--ids", "--message", "--relation", "0"],
            format!("--ids is for images, and --message is given {see}"),
        ),
        (
            &["--relation", "0", "--message"],
            format!("--relation is for images, and --message is given {see}"),
        ),
    ];
    for (arguments, sentence) in cases {
        check_wrong(arguments, &sentence);
    }
    let no_text = OsStr::from_bytes(b"--\xff");
    check_wrong(&[no_text], &format!("unknown option \"--\\xFF\" {see}"));
}

#[test]
fn files_are_read() {
    let folder = Folder::new("files");
    let image = example().to_image();
    let plain = folder.file("plain", &image);
    let no_text = folder.file(OsStr::from_bytes(b"no text \xff"), &image);
    for file in [&plain, &no_text] {
        let output = show(&[file], &[]);
        assert_eq!(output.status.code(), Some(0));
        assert!(text(&output.stdout).starts_with("image of 172 bytes"));
    }
    let output = show(&["-"], &image);
    assert!(text(&output.stdout).starts_with("image of 172 bytes"));

    // Behind `--` a name may begin like an option.
    folder.file("--svg", &image);
    let named = |arguments: &[&str]| {
        let mut program = program();
        program.current_dir(&folder.0).args(arguments).stdin(Stdio::null());
        program.output().expect("the program ends")
    };
    assert!(text(&named(&["--", "--svg"]).stdout).starts_with("image of 172 bytes"));
    assert!(text(&named(&["--svg", "--", "--svg"]).stdout).starts_with("<svg"));
    assert_eq!(named(&["--", "--svg", "plain"]).status.code(), Some(2));
}

#[test]
fn files_that_can_not_be_read_are_named() {
    let folder = Folder::new("unread");
    let missing = folder.0.join("missing");
    let why = "No such file or directory (os error 2)";
    check_wrong(&[&missing], &format!("cannot read {missing:?}: {why}"));
    let why = "Is a directory (os error 21)";
    check_wrong(&[&folder.0], &format!("cannot read {:?}: {why}", folder.0));
    let input = Stdio::from(File::open(&folder.0).expect("the folder"));
    let output = program().stdin(input).output().expect("the program ends");
    let expected = format!("mulkefi-show: cannot read standard input: {why}\n");
    assert_eq!((output.status.code(), text(&output.stderr)), (Some(2), expected.as_str()));
}

#[test]
fn bytes_without_end_are_not_read() {
    let why = "has more than 1048576 bytes; an image has at most 21135, a message 38";
    check_wrong(&["/dev/zero"], &format!("\"/dev/zero\" {why}"));
    check_wrong(&["--message", "/dev/zero"], &format!("\"/dev/zero\" {why}"));
    // As many as are read are refused by the engine.
    let most = show::<&str>(&[], &vec![0; 1 << 20]);
    assert_eq!(most.status.code(), Some(1));
    let more = show::<&str>(&[], &vec![0; (1 << 20) + 1]);
    assert_eq!(text(&more.stderr), format!("mulkefi-show: standard input {why}\n"));
}

/// The status and the sentence where standard output is this.
fn written_to(output: Stdio, arguments: &[&str]) -> (Option<i32>, String) {
    let folder = Folder::new(&format!("output{}", arguments.len()));
    let file = folder.file("image", &example().to_image());
    let mut program = program();
    let output = program.args(arguments).arg(file).stdin(Stdio::null()).stdout(output);
    let output = output.stderr(Stdio::piped()).spawn().and_then(|child| child.wait_with_output());
    let output = output.expect("the program ends");
    (output.status.code(), text(&output.stderr).to_string())
}

#[test]
fn output_that_can_not_be_written_is_told() {
    for arguments in [&[][..], &["--svg"], &["--svg", "--ids"], &["--svg", "--ids", "--help"]] {
        let full = File::create("/dev/full").expect("a device that is full");
        let why = "No space left on device (os error 28)";
        let sentence = format!("mulkefi-show: cannot write to standard output: {why}\n");
        assert_eq!(written_to(full.into(), arguments), (Some(2), sentence));

        let (reader, writer) = std::io::pipe().expect("a pipe");
        drop(reader);
        let why = "Broken pipe (os error 32)";
        let sentence = format!("mulkefi-show: cannot write to standard output: {why}\n");
        assert_eq!(written_to(writer.into(), arguments), (Some(2), sentence));
    }
}

#[test]
fn the_status_is_there_without_standard_error() {
    let full = || Stdio::from(File::create("/dev/full").expect("a device that is full"));
    let status = |arguments: &[&str], output: Stdio| {
        let mut program = program();
        program.args(arguments).stdin(Stdio::null()).stdout(output).stderr(full());
        program.status().expect("the program ends").code()
    };
    assert_eq!(status(&["--png"], Stdio::null()), Some(2));
    assert_eq!(status(&[], Stdio::null()), Some(1));
    assert_eq!(status(&["--help"], full()), Some(2));
    assert_eq!(status(&["--help"], Stdio::null()), Some(0));
}
