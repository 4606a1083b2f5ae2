//! The order in which an image is refused.

use crate::orders::{check, Given, Rule};
use mulkefi::{test, Drawing, Kind, Refusal, Relation};

/// Points stand from byte 15 on, curves from 15 + 4 * 21 = 99, relations from 99 + 2 * 47 = 193.
fn good() -> Vec<u8> {
    let mut drawing = Drawing::new();
    let [a, b, p, q] =
        [(0.0, 0.0), (4.0, 0.0), (1.0, -1.0), (1.0, 1.0)].map(|(x, y)| drawing.add_point(x, y));
    let first = drawing.add_curve(Kind::Line { a, b });
    let second = drawing.add_curve(Kind::Line { a: p, b: q });
    drawing.relations.push(Relation::Length { line: first, value: 4.0 });
    drawing.relations.push(Relation::Length { line: second, value: 2.0 });
    drawing.to_image()
}

fn refusal(image: &[u8]) -> Given {
    test(image).map_or_else(|refusal| Given::Number(refusal.number()), |()| Given::Accepted)
}

#[test]
fn an_image_is_refused_by_the_first_rule_that_it_breaks() {
    let rules: [Rule<Vec<u8>>; 11] = [
        ("short", |image| image.truncate(4)),
        ("version", |image| image[4] = 2),
        ("length", |image| image[3] ^= 1),
        ("counts", |image| image[9] = 3),
        ("next id", |image| image[5..9].fill(0)),
        ("values of a point", |image| image[15 + 20] = 2),
        ("id of a point", |image| image[15..19].fill(0)),
        ("values of a curve", |image| image[99 + 4] = 6),
        ("ids of a curve", |image| image[99..103].fill(0)),
        ("values of a relation", |image| image[193] = 10),
        ("ids of a relation", |image| image[194..198].fill(0)),
    ];
    check("Of an image", &good(), &rules, &[], |image| refusal(image));
}

#[test]
fn every_way_to_break_the_length_gives_its_number() {
    let good = good();
    for size in 5..good.len() {
        assert_eq!(test(&good[..size]), Err(Refusal::Length), "{size}");
    }
    let mut longer = good.clone();
    longer.push(0);
    assert_eq!(test(&longer), Err(Refusal::Length));
    // A size and a length field that agree, below a header's.
    for size in 5..15u8 {
        let mut short = good[..size.into()].to_vec();
        short[3] = size - 4;
        assert_eq!(test(&short), Err(Refusal::Length), "{size}");
    }
    // And with a header and counts that ask for more.
    let mut headless = good[..15].to_vec();
    headless[3] = 11;
    assert_eq!(test(&headless), Err(Refusal::Count));
}

/// Of two records of a table, the first one's id is tested before the second one's values.
#[test]
fn records_are_tested_one_after_the_other() {
    let spoil_ids = [15, 99, 194];
    let spoil_values = [15 + 21 + 20, 99 + 47 + 4, 193 + 17];
    for (id, value) in spoil_ids.into_iter().zip(spoil_values) {
        let mut image = good();
        image[value] = 0xff;
        assert_eq!(test(&image), Err(Refusal::Value));
        image[id..id + 4].fill(0);
        assert_eq!(test(&image), Err(Refusal::Reference));
    }
}
