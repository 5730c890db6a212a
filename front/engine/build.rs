//! Links the proved engine's archive, which `tools/archive` writes.

use std::env;
use std::path::PathBuf;

fn main() {
    let here = PathBuf::from(env::var("CARGO_MANIFEST_DIR").unwrap());
    let directory = here.join("../../target/staticlib");
    let archive = directory.join("libexported.a");
    println!("cargo:rerun-if-changed={}", archive.display());
    if !archive.exists() {
        panic!("no target/staticlib/libexported.a: run `tools/archive` at the top first");
    }
    println!("cargo:rustc-link-search=native={}", directory.display());
    println!("cargo:rustc-link-lib=static=exported");
}
