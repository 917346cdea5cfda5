//! Finds the archive of the library for the program. The second implementation and its tests do without it.

use std::path::Path;

fn main() {
    println!("cargo:rerun-if-changed=build.rs");
    if std::env::var_os("CARGO_FEATURE_LIBRARY").is_none() {
        return;
    }
    let root = std::env::var("CARGO_MANIFEST_DIR").expect("cargo sets it");
    let folder = Path::new(&root).join("../crates/cehmoli/out");
    let archive = folder.join("libcehmoli.a");
    println!("cargo:rerun-if-changed={}", archive.display());
    println!("cargo:rustc-link-search=native={}", folder.display());
    if !archive.exists() {
        eprintln!("crates/cehmoli/out/libcehmoli.a is missing; build it first: (cd crates/cehmoli && rt lib)");
        std::process::exit(1);
    }
}
