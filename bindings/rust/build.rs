//! Links the engine's static library from the folder named by MULKEFI_STATICLIB, which is taken
//! from `bindings/` where it is relative; by default the folder into which the engine is built.

use std::path::PathBuf;

fn main() {
    println!("cargo::rerun-if-env-changed=MULKEFI_STATICLIB");
    let bindings =
        PathBuf::from(std::env::var("CARGO_MANIFEST_DIR").expect("set by cargo")).join("..");
    let named = std::env::var("MULKEFI_STATICLIB").unwrap_or("../target/staticlib".into());
    let folder = bindings.join(named);
    let library = folder.join("libmulkefi.a");
    println!("cargo::rerun-if-changed={}", library.display());
    if !library.is_file() {
        println!(
            "cargo::error=no {}: run `tools/staticlib mulkefi` first or set MULKEFI_STATICLIB",
            library.display()
        );
        return;
    }
    println!("cargo::rustc-link-search=native={}", folder.display());
    println!("cargo::rustc-link-lib=static=mulkefi");
}
