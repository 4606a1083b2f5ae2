//! Numbers in the words of a table's cells.

use crate::document::table;
use crate::sources::{self, header};
use mulkefi::{versions, LARGEST_IMAGE, MESSAGE_SIZE, MOST_ROOTS, WINDOW_MESSAGES};

/// A whole number as the document writes it, with a comma behind each third digit from the right.
fn grouped(number: usize) -> String {
    let digits = number.to_string();
    let first = (digits.len() + 2) % 3 + 1;
    let (head, tail) = digits.split_at(first.min(digits.len()));
    let groups = tail.as_bytes().chunks(3).map(|group| std::str::from_utf8(group).expect("digits"));
    std::iter::once(head).chain(groups).collect::<Vec<_>>().join(",")
}

/// The cell of a row, found by what stands in its column `of`.
fn check(heading: &str, of: &str, name: &str, column: &str, expected: &str) {
    let rows = table(heading);
    let found = rows.iter().find(|row| row.cell(of) == name);
    let found = found.unwrap_or_else(|| panic!("{heading} has no {name}"));
    assert_eq!(found.cell(column), expected, "{heading}: {name}");
}

fn check_rule(heading: &str, rule: &str, expected: &str) {
    check(heading, "rule", rule, "broken where", expected);
}

#[test]
fn numbers_are_grouped_by_thousands() {
    let numbers = [0, 38, 512, 2_432, 21_135, 128_000, 4_294_967_295];
    let expected = ["0", "38", "512", "2,432", "21,135", "128,000", "4,294,967,295"];
    assert_eq!(numbers.map(grouped), expected);
    assert!(crate::document::TEXT.contains(&grouped(LARGEST_IMAGE)));
}

#[test]
fn rules_of_an_image_have_the_codes_numbers() {
    let image = sources::image();
    let (version_at, size) = (image["VERSION_AT"], image["HEADER_SIZE"]);
    let heading = "Of an image";
    check_rule(heading, "short", &format!("there are fewer than {} bytes", version_at + 1));
    check_rule(heading, "version", &format!("it is not {}", versions().image));
    let length = "bytes, or the field is not the number of bytes behind it";
    check_rule(heading, "length", &format!("there are fewer than {size} {length}"));
    check_rule(heading, "next id", "it is 0");
    let unused = "out of range, or what the kind does not use is not 0";
    let curve = "kind or flags are unknown, infinite is no line's, degree, radius or rho is";
    check_rule(heading, "values of a curve", &format!("{curve} {unused}"));
    let relation = "the kind is unknown, the value is";
    check_rule(heading, "values of a relation", &format!("{relation} {unused}"));
}

#[test]
fn rules_of_messages_have_the_codes_numbers() {
    let (heading, size) = ("Of a message, at the wall", MESSAGE_SIZE);
    let message = sources::message();
    let short = message["VERSION_AT"] + 1;
    check_rule(heading, "short", &format!("there are fewer than {short} bytes"));
    check_rule(heading, "version", &format!("it is not {}", versions().message));
    let length = size - message["LENGTH_SIZE"];
    let expected = format!("there are not {size} bytes, or the field is not {length}");
    check_rule(heading, "length", &expected);
    check_rule(heading, "operation", "it is unknown, or the number is 0");
}

#[test]
fn rules_of_the_desk_have_the_codes_numbers() {
    let (heading, size, last) = ("Of a call at the desk", MESSAGE_SIZE, u32::MAX as usize);
    let expected = format!("fewer than {size} bytes are lent for the message");
    check_rule(heading, "message room", &expected);
    check_rule(heading, "count", &format!("it is {}: no number is left", grouped(last)));
    let heading = "Of a catch-up";
    let rest = "messages are due, or the window does not hold one of them";
    check_rule(heading, "window", &format!("more than {WINDOW_MESSAGES} {rest}"));
    let expected = format!("fewer than {size} bytes are lent for each message due");
    check_rule(heading, "room", &expected);
}

#[test]
fn rules_of_edits_and_roots_have_the_codes_numbers() {
    let (heading, last) = ("Of a trim", grouped(u32::MAX as usize));
    check_rule(heading, "ids for points", &format!("the next id is {last}"));
    let expected = format!("the next id, behind those of the new points, is {last}");
    check_rule(heading, "ids for curves", &expected);
    let short = "the line is shorter than 0.000000000001 and the other curve freeform";
    let off = "or a hit on that lies more than 0.0000001 off the line";
    check_rule("Of an extend", "exactness", &format!("{short}, {off}"));
    let heading = "Of a search for roots";
    assert_eq!(header("MULKEFI_ROOTS_ROOM") as usize, MOST_ROOTS);
    check_rule(heading, "room", &format!("memory is lent for fewer than {MOST_ROOTS} floats"));
    let most = header("MULKEFI_MOST_COEFFICIENTS") as usize;
    let rest = "or one is not finite, also of a derivative";
    let expected = format!("there are none or more than {most}, {rest}");
    check_rule(heading, "coefficients", &expected);
}

/// A last number of a table of kinds.
fn last(heading: &str) -> usize {
    table(heading).last().expect("a row").number("kind")
}

#[test]
fn fields_hold_the_codes_numbers() {
    let image = sources::image();
    let [point, curve, relation] =
        [("Point", "POINT_SIZE"), ("Curve", "CURVE_SIZE"), ("Relation", "RELATION_SIZE")]
            .map(|(title, size)| format!("{title}, {} bytes", image[size]));
    let fixed = "bit 0: fixed, which no extend moves; the other bits are 0";
    check(&point, "field", "flags", "holds", fixed);
    let kinds = |heading| format!("1 to {}, as below", last(heading));
    check(&curve, "field", "kind", "holds", &kinds("Kinds of curves"));
    check(&relation, "field", "kind", "holds", &kinds("Kinds of relations"));
    let flags = "bit 0: construction; bit 1: centerline; bit 2: infinite, lines alone; the other bits are 0";
    check(&curve, "field", "flags", "holds", flags);
    check(&curve, "field", "degree", "holds", "of a Bézier curve; else 0");
    let slot = "the id of a point, or 0 where the kind does not use it; so those behind it";
    check(&curve, "field", "second slot", "holds", slot);
    let number = "a float: a circle's radius or a conic's rho; else all bits 0";
    check(&curve, "field", "number", "holds", number);
    check(&relation, "field", "second id", "holds", "or 0 where the kind has one id");
    check(&relation, "field", "value", "holds", "a float, or all bits 0 where the kind has none");
    let message = format!("Message, {MESSAGE_SIZE} bytes");
    check(&message, "field", "mark", "holds", "that of the start of the desk, any 8 bytes");
    check(&message, "field", "number", "holds", "of the edit, from 1");
    check(&message, "field", "operation", "holds", "1 trim, 2 split, 3 extend");
}

#[test]
fn terms_have_the_codes_numbers() {
    let is = |term, expected: &str| check("Terms", "term", term, "what it is", expected);
    let of_message = "of a message: the desk's count once it has accepted the edit, from 1 on";
    is("number", &format!("{of_message}; of a refusal: what the call answers"));
    is("message", &format!("an accepted edit as {MESSAGE_SIZE} bytes, as above"));
    let rest = "messages of a desk, from which a wall catches up";
    is("window", &format!("the last {WINDOW_MESSAGES} {rest}"));
    let foreign = header("MULKEFI_FOREIGN");
    is("foreign", &format!("of a message: it bears another mark than the wall's ({foreign})"));
    is("met", "of a relation: what it measures is off by no more than 0.0000001");
    let ahead = header("MULKEFI_AHEAD");
    let count = "its number is more than one above the wall's count";
    is("ahead", &format!("of a message: {count}, so that an earlier one is missing ({ahead})"));
    let [unmet, broken] = ["MULKEFI_RELATIONS_UNMET", "MULKEFI_RELATIONS_BROKEN"].map(header);
    let before = "of a record: how many stand before it in its table";
    let comes = format!("a refusal by {unmet} or {broken} comes with that of a relation");
    is("place", &format!("{before}; {comes}"));
}

/// Where an order leads on to another, its row has the first and the last number of that.
#[test]
fn ranges_of_numbers_are_the_headers() {
    let range = |first: &str, last: &str| format!("{} to {}", header(first), header(last));
    let image = range("MULKEFI_BAD_LENGTH", "MULKEFI_BAD_ID");
    let edit = range("MULKEFI_NO_CURVE", "MULKEFI_OUT_OF_RANGE");
    for heading in ["Of a message, at the wall", "Of a call at the desk"] {
        check(heading, "rule", "image", "number", &image);
        check(heading, "rule", "edit", "number", &edit);
    }
}
