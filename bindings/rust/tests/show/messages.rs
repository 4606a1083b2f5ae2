//! Messages in words.

use crate::{example, show, text, Folder};
use mulkefi::{Mark, Message, Operation};
use std::ffi::OsStr;

fn example_message() -> Message {
    let mark = Mark::from(0x0000_0003_0000_0029);
    Message { mark, number: 12, operation: Operation::Extend, curve: 7, x: 0.1, y: -2e-7 }
}

#[test]
fn a_message_is_listed() {
    let message = example_message();
    let listed = "\
message of 38 bytes, version 2
mark       0000000300000029
number     12
operation  extend
curve      7
pick       0.1, -2e-7
";
    let output = show(&["--message"], &message.to_bytes());
    assert_eq!((output.status.code(), text(&output.stdout)), (Some(0), listed));
    assert!(output.stderr.is_empty());

    let folder = Folder::new("message");
    let file = folder.file("message", &message.to_bytes());
    let output = show(&[OsStr::new("--message"), file.as_os_str()], &[]);
    assert_eq!((output.status.code(), text(&output.stdout)), (Some(0), listed));

    let [x, y] = [f64::INFINITY, f64::from_bits(0x7ff0_0000_0000_0001)];
    let output = show(&["--message"], &Message { x, y, ..message }.to_bytes());
    assert!(text(&output.stdout).ends_with("pick       inf, NaN (bits 7ff0000000000001)\n"));
}

#[test]
fn a_bad_message_is_refused_at_its_byte() {
    let bytes = example_message().to_bytes();
    let spoilt = |at: usize, field: &[u8]| {
        let mut bytes = bytes.to_vec();
        bytes[at..at + field.len()].copy_from_slice(field);
        bytes
    };
    let length = "1: The bytes end too soon or too late for their length field.";
    let version = "2: The version byte is one that this engine does not read.";
    let operation = "6: The operation is unknown, or the edit's number is 0.";
    let none = "(no single byte is to blame)";
    let cases = [
        (vec![], length, format!("end of the bytes at 0: no version byte {none}")),
        (spoilt(4, &[1]), version, "byte 4: version is not 2".to_string()),
        (
            bytes[..37].to_vec(),
            length,
            format!("end of the bytes at 37: message is not whole: it has 38 bytes {none}"),
        ),
        (
            [&bytes[..], &bytes].concat(),
            length,
            format!("bytes 38 to 75: bytes behind the message's 38 {none}"),
        ),
        (spoilt(0, &[1]), length, "bytes 0 to 3: length is not 34".to_string()),
        (spoilt(13, &[0; 4]), operation, "bytes 13 to 16: number is 0".to_string()),
        (spoilt(17, &[9]), operation, "byte 17: operation is not from 1 to 3".to_string()),
    ];
    for (bytes, refusal, fault) in cases {
        let output = show(&["--message"], &bytes);
        let expected = format!("refused by {refusal}\n{fault}\n");
        assert_eq!((output.status.code(), text(&output.stderr)), (Some(1), expected.as_str()));
        assert!(output.stdout.is_empty());
    }
    // An image is no message, nor is a message an image.
    assert_eq!(show(&["--message"], &example().to_image()).status.code(), Some(1));
    assert_eq!(show::<&str>(&[], &bytes).status.code(), Some(1));
}
