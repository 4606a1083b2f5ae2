//! Every planted fault is seen by the program, and the engine as it is passes.

use std::process::{Command, Output};

fn fuzz(arguments: &[&str]) -> (Output, String) {
    let output = Command::new(env!("CARGO_BIN_EXE_fuzz")).args(arguments).output();
    let output = output.expect("the program runs");
    let printed = String::from_utf8_lossy(&output.stdout).into_owned();
    (output, printed)
}

#[test]
fn planted_faults_are_seen() {
    // Memory around a buffer is guarded on one side, and compared on the other.
    let around = ["memory that it was not lent", "of the buffer altered"];
    let around_messages = ["memory that it was not lent", "of the messages altered"];
    let around_window = ["memory that it was not lent", "of the window altered"];
    let faults = [
        ("writes-behind", around),
        ("writes-before", around),
        ("writes-rest", ["of the buffer altered"; 2]),
        ("refused-message", ["of the message, on refusal altered"; 2]),
        ("unmet-place", ["13 with place "; 2]),
        ("broken-place", ["19 with place "; 2]),
        ("other-place", ["answer 0x10012 is no refusal"; 2]),
        ("swapped-mark", ["at a wall: 28: "; 2]),
        ("slid-63", ["of the window is wrong after edit "; 2]),
        ("slid-twice", ["of the window is wrong after edit "; 2]),
        ("slid-refused", ["of the window, on refusal altered"; 2]),
        ("writes-window-behind", around_window),
        ("refused-answer", ["of the answer, on refusal altered"; 2]),
        ("reads-behind", ["memory that it was not lent"; 2]),
        ("operation-first", ["the engine says 6, the plain reading 28"; 2]),
        ("foreign-old", ["the engine says 0, the plain reading 28"; 2]),
        ("half-mark", ["the plain reading 28"; 2]),
        ("writes-input", ["memory that it was not lent"; 2]),
        ("writes-roots", ["of the roots altered"; 2]),
        ("reads-number-behind", ["memory that it was not lent"; 2]),
        ("writes-largest", ["of the largest altered"; 2]),
        ("endless", ["did not end"; 2]),
        ("deep", ["memory that it was not lent"; 2]),
        ("slots-63", ["the engine says 26, the plain reading 0"; 2]),
        ("left-at-64", ["says 26, the plain reading 0", "says 26, the plain reading 25"]),
        ("left-at-66", ["the engine says 0, the plain reading 26"; 2]),
        ("from-count", ["of the messages is wrong", "the engine says "]),
        ("from-second", ["of the messages is wrong", "the engine says "]),
        ("falling", ["of the messages is wrong"; 2]),
        ("room-before-left", ["the engine says 25, the plain reading 26"; 2]),
        ("room-before-above", ["the engine says 25, the plain reading 27"; 2]),
        ("room-of-all", ["the engine says 25, the plain reading 0"; 2]),
        ("as-many-as-fit", ["the engine says 0, the plain reading 25"; 2]),
        ("above-accepted", ["the engine says 0, the plain reading 27"; 2]),
        ("any-mark", ["says 0, the plain reading 26", "says 25, the plain reading 26"]),
        ("any-number", ["says 0, the plain reading 26", "says 25, the plain reading 26"]),
        ("any-operation", ["says 0, the plain reading 26", "says 25, the plain reading 26"]),
        ("any-version", ["says 0, the plain reading 26", "says 25, the plain reading 26"]),
        ("writes-beyond", ["of the messages altered"; 2]),
        ("writes-room-behind", around_messages),
        ("writes-refused", ["of the messages altered"; 2]),
        ("writes-window", ["memory that it was not lent"; 2]),
        ("reads-window-behind", ["memory that it was not lent"; 2]),
    ];
    // Those that the program names are all here.
    let (output, _) = fuzz(&["--planted", "none"]);
    let usage = String::from_utf8_lossy(&output.stderr).into_owned();
    let listed = usage.lines().filter(|line| line.starts_with("  "));
    let names = listed.filter_map(|line| line.split_whitespace().next());
    assert!(names.eq(faults.iter().map(|(name, _)| *name)), "{usage}");
    for (fault, expected) in faults {
        let (output, printed) = fuzz(&["20", "1", "--planted", fault]);
        assert_eq!(output.status.code(), Some(1), "{fault}: {printed}");
        let named = expected.iter().any(|words| printed.contains(words));
        assert!(printed.contains("fault in case ") && named, "{fault}: {printed}");
    }
}

#[test]
fn the_engine_passes() {
    let (output, printed) = fuzz(&["2"]);
    assert_eq!(output.status.code(), Some(0), "{printed}");
    // Foreign messages came up, and every outcome of a catch-up.
    assert!(printed.contains(" 28:"), "{printed}");
    let catch_ups = printed.lines().find(|line| line.contains("catch_up")).unwrap_or("");
    for outcome in [" accepted:", " 25:", " 26:", " 27:"] {
        assert!(catch_ups.contains(outcome), "{printed}");
    }
}

#[test]
fn an_unknown_fault_is_no_fault() {
    assert_eq!(fuzz(&["--planted", "none"]).0.status.code(), Some(2));
}
