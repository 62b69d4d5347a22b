//! Finds the proved library, libsequence.a, for the tests that have `mod proved`. Where it isn't there, these fail
//! and say so; all else builds without it.
use std::env;
use std::path::Path;

fn main() {
    let package = env::var("CARGO_MANIFEST_DIR").expect("cargo gives the package's folder");
    let folder = Path::new(&package).join("../target/staticlib");
    let archive = folder.join("libsequence.a");
    println!("cargo:rustc-check-cfg=cfg(library)");
    println!("cargo:rerun-if-changed={}", archive.display());
    if archive.is_file() {
        println!("cargo:rustc-link-search=native={}", folder.display());
        println!("cargo:rustc-cfg=library");
    }
}
