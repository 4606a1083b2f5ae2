//! The example: its bytes against the engine and the binding's reader.

use crate::document::{float, table, Row};
use mulkefi::{read, Delivery, Desk, Edit, Kind, Mark, Message, Operation, Relation, Report, Wall};

/// The bytes of a table, each row of which says where its own begin.
fn bytes(title: &str, size: usize) -> Vec<u8> {
    let mut bytes = Vec::new();
    for row in table(&format!("{title}, {size} bytes")) {
        assert_eq!(row.number("byte"), bytes.len(), "{title}");
        bytes.extend(row_bytes(&row));
    }
    assert_eq!(bytes.len(), size, "{title}");
    bytes
}

fn row_bytes(row: &Row) -> Vec<u8> {
    let hex = row.cell("hex").trim_matches('`').split(' ');
    hex.map(|byte| u8::from_str_radix(byte, 16).expect("a byte")).collect()
}

fn image() -> Vec<u8> {
    bytes("The image", 210)
}

/// The mark, number and edit that the document's words give the message.
const MARK: u64 = 0x0000_0003_0000_0029;
const TRIM: Edit = Edit { operation: Operation::Trim, curve: 5, x: 3.0, y: 0.5 };

#[test]
fn the_image_is_the_drawing_that_the_words_tell() {
    let drawing = read(&image()).expect("a good image");
    let points: Vec<_> =
        drawing.points.iter().map(|point| (point.id, point.x, point.y, point.fixed)).collect();
    let expected =
        [(1, 0.0, 0.0, true), (2, 4.0, 0.0, false), (3, 1.0, -1.0, false), (4, 1.0, 1.0, false)];
    assert_eq!(points, expected);
    let curves: Vec<_> =
        drawing.curves.iter().map(|curve| (curve.id, curve.kind.clone())).collect();
    assert_eq!(curves, [(5, Kind::Line { a: 1, b: 2 }), (6, Kind::Line { a: 3, b: 4 })]);
    assert_eq!(drawing.relations, [Relation::Length { line: 6, value: 2.0 }]);
    assert_eq!(drawing.next, 7);
    assert_eq!(drawing.to_image(), image());
}

#[test]
fn the_desk_writes_the_message_and_the_image() {
    let mut desk = Desk::start(&image(), Mark::from(MARK)).expect("a good image");
    let accepted = desk.edit(&TRIM).expect("the trim is accepted");
    assert_eq!(accepted.message.to_vec(), bytes("The message", 38));
    assert_eq!(desk.image(), bytes("The image afterwards", 227));
    assert_eq!(accepted.report, Report { removed: 8, start: 7, end: 2 });
}

#[test]
fn the_wall_makes_of_the_message_what_the_desk_has() {
    let mut wall = Wall::start(&image(), Mark::from(MARK)).expect("a good image");
    let delivery = wall.deliver(&bytes("The message", 38)).expect("the message is accepted");
    assert_eq!(delivery, Delivery::Applied(Report { removed: 8, start: 7, end: 2 }));
    assert_eq!(wall.image(), bytes("The image afterwards", 227));
}

#[test]
fn the_message_is_read_as_the_words_tell() {
    let read = Message::read(&bytes("The message", 38)).expect("a message");
    assert_eq!((read.mark, read.number, read.edit()), (Mark::from(MARK), 1, TRIM));
}

#[test]
fn the_image_afterwards_has_what_the_words_tell() {
    let after = read(&bytes("The image afterwards", 227)).expect("a good image");
    assert!(after.point(2).is_none() && after.curve(8).is_none());
    let line = after.curve(5).expect("line 5 keeps its id");
    assert_eq!(line.kind, Kind::Line { a: 1, b: 7 });
    let pin = Relation::PointOnCurve { p: 7, curve: 6 };
    assert_eq!(after.relations, [Relation::Length { line: 6, value: 2.0 }, pin]);
}

/// The numbers that a row's meaning has in it.
fn numbers(meaning: &str) -> Vec<f64> {
    let parts = meaning.split(|c: char| !c.is_ascii_digit() && !['.', '−'].contains(&c));
    parts.filter_map(float).collect()
}

/// The number that bytes encode: a float in eight of them, else a whole number.
fn value(bytes: &[u8]) -> f64 {
    match <[u8; 8]>::try_from(bytes) {
        Ok(bits) => f64::from_be_bytes(bits),
        Err(_) => bytes.iter().fold(0.0, |value, byte| value * 256.0 + f64::from(*byte)),
    }
}

/// A row's meaning has the number of its bytes; one without any stands beside zeros, or a set flag.
#[test]
fn meanings_are_those_of_the_bytes() {
    for title in
        ["The image, 210 bytes", "The message, 38 bytes", "The image afterwards, 227 bytes"]
    {
        for row in table(title) {
            let (part, meaning) = (row_bytes(&row), row.cell("meaning"));
            match &numbers(meaning)[..] {
                [] => {
                    assert_eq!(value(&part), f64::from(u8::from(meaning == "fixed")), "{meaning}")
                }
                [number] => assert_eq!(value(&part), *number, "{meaning}"),
                [desk, start] => {
                    assert_eq!(
                        [value(&part[..4]), value(&part[4..])],
                        [*desk, *start],
                        "{meaning}"
                    );
                }
                more => panic!("{meaning} has {more:?}"),
            }
        }
    }
}
