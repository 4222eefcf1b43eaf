//! Links the library that `tools/staticlib sktelbaan` writes, one folder up from this crate.

use std::path::Path;

fn main() {
    let root = std::env::var("CARGO_MANIFEST_DIR").expect("cargo gives the crate's folder");
    let folder = Path::new(&root).join("../target/staticlib");
    let archive = folder.join("libsktelbaan.a");
    println!("cargo:rerun-if-changed=build.rs");
    println!("cargo:rerun-if-changed={}", archive.display());
    if !archive.exists() {
        eprintln!("target/staticlib/libsktelbaan.a is missing: run `tools/staticlib sktelbaan`");
        std::process::exit(1);
    }
    println!("cargo:rustc-link-search=native={}", folder.display());
    println!("cargo:rustc-link-lib=static=sktelbaan");
}
