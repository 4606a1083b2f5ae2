//! Brings the upstream edits into the build.
//!
//! The two files are taken as they are from the folder named by MULKEFI_UPSTREAM, or else from
//! `../shared/docs/src/src/sketching` beside the repository, and copied with exactly the
//! replacements listed below. A text that does not occur as often as listed ends the build.
//! Where the folder is absent, the crate builds without the edits.

use std::path::{Path, PathBuf};

struct Replacement {
    text: &'static str,
    by: &'static str,
    times: usize,
}

/// Angles are turns of four quarters, so 4 stands wherever upstream has 2π.
///
/// Its one `rem_euclid` needs no replacement. It is taken of the difference of two turns, each
/// from 0 to below 4 (or −0), times a signum of 1, so its magnitude is below 4: the remainder by
/// 4 is then the number itself, −0 staying −0, and a negative one has 4 added with one rounding.
const MODIFY: [Replacement; 1] =
    [Replacement { text: "use std::f64::consts::TAU;", by: "const TAU: f64 = 4.0;", times: 1 }];
const SUPPORT: [Replacement; 1] =
    [Replacement { text: "std::f64::consts::TAU", by: "4.0", times: 1 }];

/// Appended to the unchanged text: two functions are private there, and only a function of the
/// same module reaches them.
const SUPPORT_ENTRIES: &str = "
pub(super) fn roots_entry(c: &[f64], budget: &mut usize) -> Result<Vec<f64>> {
    roots(c, budget)
}
pub(super) fn evaluate_entry(c: &[f64], t: f64) -> f64 {
    evaluate(c, t)
}
";

fn main() {
    println!("cargo::rustc-check-cfg=cfg(upstream)");
    println!("cargo::rerun-if-env-changed=MULKEFI_UPSTREAM");
    let variable = |name: &str| PathBuf::from(std::env::var(name).expect("set by cargo"));
    let beside = "../../shared/docs/src/src/sketching".to_string();
    let named = std::env::var("MULKEFI_UPSTREAM").unwrap_or(beside);
    let folder = variable("CARGO_MANIFEST_DIR").join(named);
    println!("cargo::rerun-if-changed={}", folder.display());
    let (modify, support) = (folder.join("modify.rs"), folder.join("support.rs"));
    if !modify.is_file() || !support.is_file() {
        return;
    }
    let out = variable("OUT_DIR");
    copy(&modify, &out.join("modify.rs"), &MODIFY, "");
    copy(&support, &out.join("support.rs"), &SUPPORT, SUPPORT_ENTRIES);
    // Modules by absolute path: the files open with inner comments, which `include!` refuses.
    let module = |name: &str| {
        let path = out.join(format!("{name}.rs"));
        format!("#[allow(clippy::all)]\n#[path = {path:?}]\nmod {name};\n")
    };
    write(&out.join("modules.rs"), &(module("modify") + &module("support")));
    println!("cargo::rustc-cfg=upstream");
}

fn copy(from: &Path, to: &Path, replacements: &[Replacement], appended: &str) {
    println!("cargo::rerun-if-changed={}", from.display());
    let mut source = std::fs::read_to_string(from).expect("upstream's file can be read");
    for Replacement { text, by, times } in replacements {
        let found = source.matches(text).count();
        assert_eq!(found, *times, "{text:?} in {}", from.display());
        source = source.replace(text, by);
    }
    write(to, &(source + appended));
}

fn write(to: &Path, text: &str) {
    std::fs::write(to, text).expect("the output folder can be written");
}
