//! The pictures: the committed files are what the engine's answers give.

use crate::document::TEXT;
use crate::pictures;

#[test]
fn committed_pictures_are_those_of_the_engine() {
    let committed = [
        ("trim.svg", include_str!("../../../../docs/formats/trim.svg")),
        ("split.svg", include_str!("../../../../docs/formats/split.svg")),
        ("extend.svg", include_str!("../../../../docs/formats/extend.svg")),
    ];
    for ((name, drawn), (file, text)) in pictures::all().into_iter().zip(committed) {
        assert_eq!(name, file);
        let message = "write it again: cargo run --example formats_pictures -- ../../docs/formats";
        assert!(drawn == text, "{file} is another picture; {message}");
        assert!(TEXT.contains(&format!("](formats/{file})")), "{file} is not shown");
    }
}
