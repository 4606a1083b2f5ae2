//! `docs/HOSTING.md` against the two programs that it shows: each of its blocks is the lines of a step in
//! their source, and each step has its block.

use std::collections::BTreeMap;
use std::fs;
use std::path::{Path, PathBuf};

/// The steps of a language by name, or its blocks.
type Lines = BTreeMap<String, String>;

/// The numbered sections that show code in both languages.
const SECTIONS_WITH_CODE: usize = 12;

fn root() -> PathBuf {
    Path::new(env!("CARGO_MANIFEST_DIR")).join("../..")
}

fn document() -> String {
    fs::read_to_string(root().join("docs/HOSTING.md")).expect("docs/HOSTING.md is there")
}

/// The lines without the indentation that they have in common.
fn without_indentation(lines: &[&str]) -> String {
    let indentation = |line: &&str| line.len() - line.trim_start().len();
    let filled = lines.iter().filter(|line| !line.trim().is_empty());
    let common = filled.map(indentation).min().unwrap_or(0);
    let cut = lines.iter().map(|line| line.get(common..).unwrap_or("").to_owned() + "\n");
    cut.collect()
}

fn add(lines: &mut Lines, name: &str, added: String) -> Result<(), String> {
    match lines.insert(name.to_owned(), added) {
        None => Ok(()),
        Some(_) => Err(format!("there are two of {name}")),
    }
}

/// The steps in a source: from a comment `step: NAME` to a comment `end`.
fn steps_in(source: &str, steps: &mut Lines) -> Result<(), String> {
    let mut open: Option<(&str, Vec<&str>)> = None;
    for line in source.lines() {
        let comment = line.trim().trim_start_matches("//").trim_start_matches("/*");
        let comment = comment.trim_end_matches("*/").trim();
        let is_comment = line.trim().starts_with("//") || line.trim().starts_with("/*");
        let name = comment.strip_prefix("step: ").filter(|_| is_comment);
        match (name, open.take()) {
            (Some(name), None) => open = Some((name, Vec::new())),
            (Some(name), Some(_)) => return Err(format!("{name} begins within another step")),
            (None, Some((name, lines))) if is_comment && comment == "end" => {
                add(steps, name, without_indentation(&lines))?;
            }
            (None, Some((name, mut lines))) => {
                lines.push(line);
                open = Some((name, lines));
            }
            (None, None) => {}
        }
    }
    open.map_or(Ok(()), |(name, _)| Err(format!("{name} has no end")))
}

/// The steps in all sources of a folder that have one of these extensions.
fn steps_of(folder: &str, extensions: &[&str]) -> Lines {
    let mut steps = Lines::new();
    for entry in fs::read_dir(root().join(folder)).expect("the program's folder is there") {
        let path = entry.expect("its entries are read").path();
        let extension = path.extension().and_then(|extension| extension.to_str());
        if extension.is_some_and(|extension| extensions.contains(&extension)) {
            let source = fs::read_to_string(&path).expect("a source is text");
            steps_in(&source, &mut steps).unwrap_or_else(|fault| panic!("{path:?}: {fault}"));
        }
    }
    steps
}

/// The blocks of a language: from a line "```LANGUAGE NAME" to a line "```".
fn blocks_in(document: &str, language: &str) -> Result<Lines, String> {
    let mut blocks = Lines::new();
    let mut lines = document.lines();
    while let Some(line) = lines.next() {
        let Some(opening) = line.strip_prefix("```") else { continue };
        let block: Vec<&str> = lines.by_ref().take_while(|line| *line != "```").collect();
        let (of, name) = opening.split_once(' ').ok_or(format!("{line} names no step"))?;
        if of == language {
            add(&mut blocks, name, block.iter().map(|line| format!("{line}\n")).collect())?;
        }
    }
    Ok(blocks)
}

/// What differs between steps and blocks, if anything does.
fn difference(steps: &Lines, blocks: &Lines) -> Option<String> {
    let names = steps.keys().chain(blocks.keys());
    names.into_iter().find_map(|name| match (steps.get(name), blocks.get(name)) {
        (Some(step), Some(block)) if step == block => None,
        (Some(step), Some(block)) => {
            let first = step.lines().zip(block.lines()).find(|(step, block)| step != block);
            Some(format!("{name} differs, first at {first:?}"))
        }
        (Some(_), None) => Some(format!("{name} has no block")),
        (None, _) => Some(format!("{name} is no step of the program")),
    })
}

fn assert_same(language: &str, steps: &Lines) {
    assert!(!steps.is_empty(), "the {language} program has steps");
    let blocks = blocks_in(&document(), language).expect("the document's blocks have names");
    assert_eq!(difference(steps, &blocks), None, "{language}");
}

#[test]
fn the_blocks_in_c_are_the_steps_of_the_program() {
    assert_same("c", &steps_of("examples/hosting", &["c", "h"]));
}

#[test]
fn the_blocks_in_rust_are_the_steps_of_the_program() {
    assert_same("rust", &steps_of("bindings/rust/examples/hosting", &["rs"]));
}

#[test]
fn each_numbered_section_shows_both_languages() {
    let document = document();
    let sections: Vec<&str> = document.split("\n## ").skip(1).collect();
    for number in 1..=SECTIONS_WITH_CODE {
        let is_numbered = |section: &&&str| section.starts_with(&format!("{number}. "));
        let section = sections.iter().find(is_numbered);
        let section = section.unwrap_or_else(|| panic!("section {number} is missing"));
        for language in ["c", "rust"] {
            let blocks = blocks_in(section, language).expect("its blocks have names");
            assert!(!blocks.is_empty(), "section {number} has no {language}");
        }
    }
    let numbers = sections.iter().filter_map(|section| section.split_once(". "));
    let numbers: Vec<usize> = numbers.filter_map(|(number, _)| number.parse().ok()).collect();
    let expected: Vec<usize> = (1..=SECTIONS_WITH_CODE + 1).collect();
    assert_eq!(numbers, expected, "the sections stand in order, the checklist last");
}

#[test]
fn faults_are_noticed() {
    let source = "a\n    /* step: one */\n    b\n\n        c\n    /* end */\n";
    let mut steps = Lines::new();
    steps_in(source, &mut steps).expect("a good source");
    assert_eq!(steps["one"], "b\n\n    c\n");

    let same = blocks_in("```c one\nb\n\n    c\n```\n", "c").expect("a good document");
    assert_eq!(difference(&steps, &same), None);
    for document in
        ["", "```c one\nb\n\n    d\n```\n", "```c one\nb\n\n```\n", "```c two\nb\n```\n"]
    {
        let blocks = blocks_in(document, "c").expect("a good document");
        assert!(difference(&steps, &blocks).is_some(), "{document}");
    }
    let more = blocks_in("```c one\nb\n\n    c\n```\n```c two\n```\n", "c").expect("two blocks");
    assert!(difference(&steps, &more).is_some());
    assert!(blocks_in("```\nb\n```\n", "c").is_err());
    assert!(blocks_in("```c one\n```\n```c one\n```\n", "c").is_err());
    for source in ["// step: one\n", "// step: one\n// step: two\n// end\n"] {
        assert!(steps_in(source, &mut Lines::new()).is_err(), "{source}");
    }
}
