// Links the static library, which `make` builds.

fn main() {
    let root = std::env::var("CARGO_MANIFEST_DIR").expect("cargo sets it");
    let library = format!("{root}/../../crates/cehmoli/out");
    println!("cargo:rustc-link-search=native={library}");
    println!("cargo:rustc-link-lib=static=cehmoli");
    println!("cargo:rerun-if-changed={library}/libcehmoli.a");
}
