//! Constants of the engine's sources and of the C header, as their texts have them.

use std::collections::HashMap;

pub const HEADER: &str = include_str!("../../../../include/mulkefi.h");
const SKETCH: &str = include_str!("../../../../crates/sketch/src/lib.rt");
const IMAGE: &str = include_str!("../../../../crates/image/src/layout.rt");
const MESSAGE: &str = include_str!("../../../../crates/message/src/layout.rt");
const WINDOW: &str = include_str!("../../../../crates/window/src/lib.rt");

pub type Constants = HashMap<String, usize>;

/// The constants of the crate `image`.
pub fn image() -> Constants {
    constants(&[SKETCH, IMAGE])
}

/// The constants of the crate `message`.
pub fn message() -> Constants {
    constants(&[SKETCH, MESSAGE])
}

/// The constants of the crate `window`.
pub fn window() -> Constants {
    constants(&[SKETCH, MESSAGE, WINDOW])
}

/// Those of type `usize`, each worked out from numbers and those before it.
fn constants(texts: &[&str]) -> Constants {
    let mut found = Constants::new();
    for statement in texts.iter().flat_map(|text| text.split(';')) {
        let Some((_, constant)) = statement.rsplit_once("const ") else { continue };
        let Some((name, value)) = constant.split_once(": usize =") else { continue };
        let value = sum(&found, value);
        found.insert(name.trim().to_string(), value);
    }
    found
}

/// A sum of products of numbers and names.
fn sum(known: &Constants, text: &str) -> usize {
    let term = |text: &str| match text.trim().replace('_', "").parse() {
        Ok(number) => number,
        Err(_) => *known.get(text.trim()).unwrap_or_else(|| panic!("{text} is not known")),
    };
    text.split('+').map(|product| product.split('*').map(term).product::<usize>()).sum()
}

/// What the header defines a name as, or gives a case of an enumeration.
pub fn header(name: &str) -> f64 {
    let value = HEADER.lines().find_map(|line| {
        let line = line.trim();
        let defined = line.strip_prefix("#define ").and_then(|rest| rest.split_once(' '));
        let case = line
            .split_once(" = ")
            .map(|(case, rest)| (case, rest.split([',', ' ']).next().expect("a first part")));
        [defined, case].into_iter().flatten().find(|(of, _)| *of == name).map(|(_, value)| value)
    });
    let value = value.unwrap_or_else(|| panic!("the header has no {name}"));
    value.parse().unwrap_or_else(|_| panic!("{name} is {value}, which is no number"))
}
