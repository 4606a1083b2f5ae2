//! Images in words and as pictures.

use crate::{example, show, text, with_relations};
use mulkefi::{Kind, Relation};

#[test]
fn a_good_image_is_listed() {
    let output = show::<&str>(&[], &example().to_image());
    let listed = "\
image of 172 bytes, version 1
next id 6
3 points
       1  0.0, 0.0
       2  4.0, 0.0
       3  2.0, 3.0
2 curves
       4  line of 1, 2
       5  Bézier of 1, 3, 2
0 relations
";
    assert_eq!((output.status.code(), text(&output.stdout)), (Some(0), listed));
}

#[test]
fn a_good_image_is_drawn() {
    let output = show(&["--svg"], &example().to_image());
    let drawn = text(&output.stdout);
    assert_eq!(output.status.code(), Some(0));
    assert!(drawn.starts_with("<svg") && drawn.ends_with("</svg>\n"));
    assert_eq!(drawn.matches("<path").count(), 2);
}

#[test]
fn a_relation_is_highlighted_with_what_it_names() {
    let output = show(&["--relation", "1"], &with_relations().to_image());
    let listed = "\
image of 206 bytes, version 1
next id 6
3 points
       1  0.0, 0.0
       2  4.0, 0.0
>      3  2.0, 3.0
2 curves
>      4  line of 1, 2
       5  Bézier of 1, 3, 2
2 relations
       0  Length of 4, 4.0
>      1  Midpoint of 3, 4
";
    assert_eq!((output.status.code(), text(&output.stdout)), (Some(0), listed));
}

#[test]
fn a_relation_is_highlighted_in_the_picture() {
    let highlights = |arguments: &[&str]| {
        let output = show(arguments, &with_relations().to_image());
        assert_eq!(output.status.code(), Some(0));
        let drawn = text(&output.stdout);
        ["highlight", "highlight-point"].map(|class| {
            let class = format!("class=\"{class}\"");
            drawn.matches(&class).count()
        })
    };
    assert_eq!(highlights(&["--svg"]), [0, 0]);
    assert_eq!(highlights(&["--svg", "--relation", "0"]), [1, 0]);
    assert_eq!(highlights(&["--relation", "1", "--svg"]), [1, 1]);
}

#[test]
fn a_place_behind_the_table_is_the_pins_or_nothings() {
    let expected = [
        (
            "2",
            "no relation is at place 2, of 2 from 0; \
             with 19 that is the place of the pin that the edit would have added",
        ),
        ("3", "no relation is at place 3, of 2 from 0"),
    ];
    for (place, why) in expected {
        let output = show(&["--relation", place], &with_relations().to_image());
        let why = format!("mulkefi-show: {why}\n");
        assert_eq!((output.status.code(), text(&output.stderr)), (Some(2), why.as_str()));
        assert!(output.stdout.is_empty());
    }
}

#[test]
fn ids_are_labels_in_the_picture() {
    let image = with_relations().to_image();
    let drawn = |arguments: &[&str]| {
        let output = show(arguments, &image);
        assert_eq!(output.status.code(), Some(0));
        text(&output.stdout).to_string()
    };
    let labels = |picture: &str, class: &str| -> Vec<String> {
        let labels = picture.lines().filter(|line| line.contains(&format!("\"{class}\"")));
        let id = |line: &str| line.split(['>', '<']).nth(2).expect("a text").to_string();
        labels.map(id).collect()
    };
    let (plain, labelled) = (drawn(&["--svg"]), drawn(&["--svg", "--ids"]));
    assert_eq!(labels(&labelled, "point-id"), ["1", "2", "3"]);
    assert_eq!(labels(&labelled, "curve-id"), ["4", "5"]);
    let without = |picture: &str| -> String {
        let lines = picture.lines().filter(|line| !line.contains("-id"));
        lines.map(|line| format!("{line}\n")).collect()
    };
    assert_eq!(without(&labelled), plain);
    let both = drawn(&["--ids", "--relation", "1", "--svg"]);
    assert_eq!(without(&both), drawn(&["--svg", "--relation", "1"]));
    assert_eq!(labels(&both, "curve-id"), ["4", "5"]);
}

/// The picture without ids, byte for byte.
#[test]
fn the_picture_stays_as_it_is() {
    let mut drawing = example();
    let c = drawing.add_fixed_point(2.0, 1.0);
    drawing.add_curve(Kind::Circle { c, radius: 0.5 });
    drawing.add_curve(Kind::Arc { c, a: 1, b: 2 });
    drawing.curves[0].infinite = true;
    drawing.curves[0].construction = true;
    drawing.relate(Relation::PointOnCurve { p: c, curve: 4 });
    let output = show(&["--svg", "--relation", "0"], &drawing.to_image());
    assert_eq!(text(&output.stdout), include_str!("picture.svg"));
}

#[test]
fn a_bad_image_is_refused_at_its_byte() {
    let mut image = example().to_image();
    // The second curve's kind.
    image[15 + 3 * 21 + 47 + 4] = 9;
    let output = show::<&str>(&[], &image);
    let expected = "\
refused by 4: A field holds what it may not, or one not in use isn't zero.
byte 129, in curve 1 of its table: unknown kind of curve
";
    assert_eq!((output.status.code(), text(&output.stderr)), (Some(1), expected));
    assert!(output.stdout.is_empty());
}

#[test]
fn where_no_single_byte_is_to_blame_it_says_so() {
    let image = example().to_image();
    let output = show(&["--svg"], &image[..image.len() - 1]);
    assert_eq!(output.status.code(), Some(1));
    assert!(text(&output.stderr).ends_with("(no single byte is to blame)\n"));
    let nothing = show::<&str>(&[], &[]);
    assert_eq!(nothing.status.code(), Some(1));
    assert!(text(&nothing.stderr).contains("end of the bytes at 0: no version byte"));
}
