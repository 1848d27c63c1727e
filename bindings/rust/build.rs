//! Links libarena.a, which bindings/build makes; ARENA_LIBRARY names another folder that has it.

use std::path::PathBuf;

fn main() {
    let usual =
        PathBuf::from(std::env::var("CARGO_MANIFEST_DIR").unwrap()).join("../../out/bindings");
    let folder = std::env::var("ARENA_LIBRARY").map_or(usual, PathBuf::from);
    println!("cargo:rustc-link-search=native={}", folder.display());
    println!("cargo:rustc-link-lib=static=arena");
    println!("cargo:rerun-if-env-changed=ARENA_LIBRARY");
    println!(
        "cargo:rerun-if-changed={}",
        folder.join("libarena.a").display()
    );
}
