//! Numbers in the document's sentences: each stands in words that are checked, and there is no other.

use crate::document::prose;
use crate::sources::{self, header};
use mulkefi::{versions, MESSAGE_SIZE, WINDOW_MESSAGES};

/// A refusal's number by its name in the header.
fn refusal(name: &str) -> usize {
    header(&format!("MULKEFI_{name}")) as usize
}

/// Sentences, and parts of them, about the formats.
fn of_formats() -> Vec<String> {
    let (image, message) = (sources::image(), sources::message());
    let length = image["VERSION_AT"];
    assert_eq!(length, message["VERSION_AT"]);
    let version = image["NEXT_ID_AT"] - image["VERSION_AT"];
    let float = image["POINT_Y_AT"] - image["POINT_X_AT"];
    let sizes = ["Header", "Point", "Curve", "Relation"].map(|title| {
        let size = image[&format!("{}_SIZE", title.to_uppercase())];
        format!("### {title}, {size} bytes")
    });
    // SAFETY: the call takes nothing and only answers a number.
    let both = unsafe { mulkefi::raw::mulkefi_versions() } as usize;
    let times = (both - usize::from(versions().message)) / usize::from(versions().image);
    let mut sentences = sizes.to_vec();
    sentences.extend([
        "Bytes, places and bits are counted from 0. Bit 0 is the lowest of its byte.".into(),
        format!("A float is the {} bits of an IEEE 754 binary64, in {float} bytes", 8 * float),
        format!("a length of {length} bytes, which"),
        format!("then a version of {version} byte."),
        format!("answers {times} times the first, plus the second."),
        format!("Other versions are refused by {}.", refusal("BAD_VERSION")),
        "the weight of its apex is rho / (1 − rho)".into(),
        "It is told by its place in the table, from 0.".into(),
        format!("### Message, {MESSAGE_SIZE} bytes"),
        format!("at byte {MESSAGE_SIZE} × (n mod {WINDOW_MESSAGES})"),
        "A count is from 0 to 4,294,967,295; ".into(),
        format!("at the last one a desk has no number left ({})", refusal("NUMBERS_USED_UP")),
    ]);
    let [header, point, curve, relation] =
        ["HEADER_SIZE", "POINT_SIZE", "CURVE_SIZE", "RELATION_SIZE"].map(|name| image[name]);
    sentences.push(format!("it has {header} + {point} p + {curve} c + {relation} r bytes"));
    sentences.push("with all tables full, has 21,135 bytes.".into());
    assert_eq!(image["MAX_IMAGE_SIZE"], 21_135);
    sentences
}

/// Those about refusals. What the engine does in each case is tried by the tests of the orders.
fn of_refusals() -> Vec<String> {
    let [value, id, full, ids, place] =
        ["BAD_VALUE", "BAD_ID", "TABLE_FULL", "NUMBERS_USED_UP", "OUT_OF_RANGE"].map(refusal);
    let [overlap, off, tie] = ["OVERLAP", "OFF_LINE", "TIE"].map(refusal);
    let [unmet, broken, nothing, held, no_cut] =
        ["RELATIONS_UNMET", "RELATIONS_BROKEN", "NOTHING_MET", "END_HELD", "NO_CUT"].map(refusal);
    vec![
        format!("one point's id ({id}) is tested before the next point's values ({value})."),
        format!("the first is tested by {ids}, {full} and {place}, then the second"),
        format!("and so the new curves by {ids} and {full}."),
        format!("{overlap} and {off} are looked for curve by curve"),
        format!("on a circle with fewer than two cuts, nothing happens: {no_cut}."),
        format!(" are a tie ({tie})."),
        format!("have to be met before ({unmet}) and afterwards, the pin among them ({broken})."),
        format!("Where the line meets nothing ({nothing}), where its end is held ({held})"),
        format!("where another curve runs along it ({overlap}), nothing happens."),
    ]
}

/// Those with tolerances, which the tests of statements, relations and edits read from here or try.
fn of_tolerances() -> Vec<String> {
    let sentences = [
        "or less than 0.000000000001 of a quarter turn behind it",
        "or end on it, to within 0.000001 of both curves.",
        "Cuts nearer than 0.000001 to one that was found before count once",
        "(the first and last 0.000000001 of it)",
        "Where an end of that curve lies nearer than 0.000001, it is Coincident",
        "The line is followed beyond this end, by more than 0.000001,",
        "Two hits within 0.0000001 of one distance",
        "is off by no more than 0.0000001. Only extend",
    ];
    sentences.map(String::from).to_vec()
}

/// Those of the example, whose bytes are tested with it.
fn of_the_example() -> Vec<String> {
    let sentences = [
        "Two lines cross: line 5 from point 1 at (0, 0), which is fixed, to point 2 at (4, 0), \
         and line 6 from point 3 at (1, −1) to point 4 at (1, 1).",
        "One relation says that line 6 is 2 long.",
        "### The image, 210 bytes",
        "At a desk with the mark 00 00 00 03 00 00 00 29 a visitor trims line 5 beside (3, 0.5).",
        "### The message, 38 bytes",
        "### The image afterwards, 227 bytes",
        "The piece right of line 6 goes, and with it point 2, which no other curve uses. \
         Line 5 keeps its id and ends at the new point 7, where a pin fastens it to line 6.",
        "Id 8 was the piece's own for the time of the edit.",
        "The report is 8, 7, 2: curve 8, from point 7 to point 2.",
    ];
    sentences.map(String::from).to_vec()
}

#[test]
fn every_number_stands_in_words_that_are_checked() {
    let mut rest = prose();
    let all = [of_formats(), of_refusals(), of_the_example(), of_tolerances()].concat();
    for sentence in all {
        assert!(rest.contains(&sentence), "docs/FORMATS.md does not say: {sentence}");
        rest = rest.replacen(&sentence, "", 1);
    }
    // The name of a type of numbers has digits too.
    let rest = rest.replace("binary64", "");
    let words = rest.split(' ').filter(|word| word.contains(|c: char| c.is_ascii_digit()));
    let left: Vec<&str> = words.collect();
    assert!(left.is_empty(), "numbers that no test holds: {left:?}");
}
