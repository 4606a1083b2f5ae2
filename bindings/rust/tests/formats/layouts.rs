//! Sizes and places of fields, and the versions.

use crate::document::{number, prose, range, table};
use crate::sources::{self, header, Constants};
use mulkefi::{versions, LARGEST_IMAGE, MESSAGE_SIZE, WINDOW_MESSAGES, WINDOW_SIZE};

/// A table of fields: each stands right behind the one before it, where the constant of its name says, and all
/// together have the size.
fn check_fields(title: &str, size: usize, constants: &Constants, fields: &[(&str, &str)]) {
    let rows = table(&format!("{title}, {size} bytes"));
    assert_eq!(rows.len(), fields.len(), "{title}");
    let mut at = 0;
    for (row, (field, constant)) in rows.iter().zip(fields) {
        assert_eq!(row.cell("field"), *field);
        assert_eq!(row.number("byte"), at, "{title}: {field}");
        let place = if constant.is_empty() { 0 } else { constants[*constant] };
        assert_eq!(at, place, "{title}: {field}");
        at += row.number("bytes");
    }
    assert_eq!(at, size, "{title}");
}

#[test]
fn fields_of_the_header_stand_where_the_engine_has_them() {
    let image = sources::image();
    let fields = [
        ("length", ""),
        ("version", "VERSION_AT"),
        ("next id", "NEXT_ID_AT"),
        ("number of points", "POINT_COUNT_AT"),
        ("number of curves", "CURVE_COUNT_AT"),
        ("number of relations", "RELATION_COUNT_AT"),
    ];
    check_fields("Header", image["HEADER_SIZE"], &image, &fields);
}

#[test]
fn fields_of_a_point_stand_where_the_engine_has_them() {
    let image = sources::image();
    let fields =
        [("id", ""), ("x", "POINT_X_AT"), ("y", "POINT_Y_AT"), ("flags", "POINT_FLAGS_AT")];
    check_fields("Point", image["POINT_SIZE"], &image, &fields);
}

#[test]
fn fields_of_a_curve_stand_where_the_engine_has_them() {
    let image = sources::image();
    let fields = [
        ("id", ""),
        ("kind", "CURVE_KIND_AT"),
        ("flags", "CURVE_FLAGS_AT"),
        ("degree", "DEGREE_AT"),
        ("first slot", "SLOTS_AT"),
        ("second slot", "SECOND_SLOT_AT"),
        ("third slot", "THIRD_SLOT_AT"),
        ("fourth slot", "FOURTH_SLOT_AT"),
        ("fifth slot", "FIFTH_SLOT_AT"),
        ("sixth slot", "SIXTH_SLOT_AT"),
        ("seventh slot", "SEVENTH_SLOT_AT"),
        ("eighth slot", "EIGHTH_SLOT_AT"),
        ("number", "CURVE_NUMBER_AT"),
    ];
    check_fields("Curve", image["CURVE_SIZE"], &image, &fields);
}

#[test]
fn fields_of_a_relation_stand_where_the_engine_has_them() {
    let image = sources::image();
    let fields = [
        ("kind", ""),
        ("first id", "FIRST_ID_AT"),
        ("second id", "SECOND_ID_AT"),
        ("value", "VALUE_AT"),
    ];
    check_fields("Relation", image["RELATION_SIZE"], &image, &fields);
}

#[test]
fn fields_of_a_message_stand_where_the_engine_has_them() {
    let message = sources::message();
    assert_eq!(message["MESSAGE_SIZE"], MESSAGE_SIZE);
    let fields = [
        ("length", ""),
        ("version", "VERSION_AT"),
        ("mark", "MARK_AT"),
        ("number", "EDIT_NUMBER_AT"),
        ("operation", "OPERATION_AT"),
        ("curve", "CURVE_AT"),
        ("x", "X_AT"),
        ("y", "Y_AT"),
    ];
    check_fields("Message", MESSAGE_SIZE, &message, &fields);
    let rows = table(&format!("Message, {MESSAGE_SIZE} bytes"));
    assert_eq!(rows[0].number("holds"), MESSAGE_SIZE - message["LENGTH_SIZE"]);
    assert_eq!(rows[1].number("holds"), usize::from(versions().message));
    let image = sources::image();
    let rows = table(&format!("Header, {} bytes", image["HEADER_SIZE"]));
    assert_eq!(rows[1].number("holds"), usize::from(versions().image));
}

#[test]
fn versions_are_the_engines() {
    let rows = table("Versions");
    let found = rows.iter().map(|row| (row.cell("format"), row.number("version")));
    let (image, message) = (versions().image.into(), versions().message.into());
    assert_eq!(found.collect::<Vec<_>>(), [("image", image), ("message", message)]);
    let sizes = [(sources::image()["HEADER_SIZE"], LARGEST_IMAGE), (MESSAGE_SIZE, MESSAGE_SIZE)];
    let found = rows.iter().map(|row| range(row.cell("bytes")).expect("a range"));
    assert_eq!(found.collect::<Vec<_>>(), sizes);
}

#[test]
fn operations_are_the_headers() {
    let rows = table("Operations");
    assert_eq!(rows.len(), 3);
    for row in rows {
        let name = format!("MULKEFI_{}", row.cell("name").to_uppercase());
        assert_eq!(row.number("operation") as f64, header(&name));
    }
}

#[test]
fn the_window_has_the_engines_sizes() {
    let window = sources::window();
    assert_eq!((window["WINDOW_MESSAGES"], window["WINDOW_SIZE"]), (WINDOW_MESSAGES, WINDOW_SIZE));
    let found: Vec<usize> =
        table("Sizes of the window").iter().map(|row| row.number("number")).collect();
    assert_eq!(found, [WINDOW_MESSAGES, MESSAGE_SIZE, WINDOW_SIZE]);
    let place = format!("at byte {MESSAGE_SIZE} × (n mod {WINDOW_MESSAGES})");
    assert!(prose().contains(&place), "{place}");
}

#[test]
fn an_images_size_is_that_of_its_tables() {
    let image = sources::image();
    assert_eq!(image["MAX_IMAGE_SIZE"], LARGEST_IMAGE);
    assert_eq!(header("MULKEFI_IMAGE_SIZE") as usize, LARGEST_IMAGE);
    let [size, point, curve, relation] =
        ["HEADER_SIZE", "POINT_SIZE", "CURVE_SIZE", "RELATION_SIZE"].map(|name| image[name]);
    let sentence = format!("it has {size} + {point} p + {curve} c + {relation} r bytes");
    assert!(prose().contains(&sentence), "{sentence}");
    let text = prose();
    let (_, largest) = text.split_once("all tables full, has ").expect("the largest image");
    let largest = largest.split(' ').next().and_then(number);
    assert_eq!(largest, Some(LARGEST_IMAGE));
}
