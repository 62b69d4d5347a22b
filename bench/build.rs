//! Says where the proved library, libsequence.a, is.
use std::env;

fn main() {
    let package = env::var("CARGO_MANIFEST_DIR").expect("cargo gives the package's folder");
    let folder = format!("{package}/../target/staticlib");
    println!("cargo:rerun-if-changed={folder}/libsequence.a");
    println!("cargo:rustc-link-search=native={folder}");
    println!("cargo:rustc-check-cfg=cfg(library)");
    println!("cargo:rustc-cfg=library");
}
