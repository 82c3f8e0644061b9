//! Tells where `rt lib` puts our library, in the folder of the crate `exports`.

fn main() {
    let root = concat!(env!("CARGO_MANIFEST_DIR"), "/../..");
    println!("cargo:rustc-link-search=native={root}/crates/exports/out");
    println!("cargo:rerun-if-changed={root}/crates/exports/out/libexports.a");
}
