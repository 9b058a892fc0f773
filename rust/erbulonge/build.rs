//! Links the archive of the proved crate `port_c`, the exports of `port`.
use std::path::Path;

fn main() {
    let folder = concat!(env!("CARGO_MANIFEST_DIR"), "/../../target/staticlib");
    let archive = Path::new(folder).join("libport.a");
    println!("cargo::rerun-if-changed={}", archive.display());
    if !archive.exists() {
        println!(
            "cargo::error=there is no target/staticlib/libport.a: run `tools/archive` at the top of the repository (it proves the crate and writes the archive)"
        );
        return;
    }
    println!("cargo::rustc-link-search=native={folder}");
    println!("cargo::rustc-link-lib=static=port");
}
