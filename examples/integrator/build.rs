//! Where the static library is.

fn main() {
    let archive = concat!(env!("CARGO_MANIFEST_DIR"), "/../../crates/exports/out");
    println!("cargo::rustc-link-search=native={archive}");
    println!("cargo::rerun-if-changed={archive}/libexports.a");
}
