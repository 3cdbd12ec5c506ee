//! Links the add-in's archive, which `make archive` writes.
use std::path::PathBuf;

fn main() {
    let root = PathBuf::from(std::env::var("CARGO_MANIFEST_DIR").unwrap()).join("../..");
    let folder = root.join("target").join("staticlib");
    let archive = folder.join("libaddin.a");
    println!("cargo:rerun-if-changed={}", archive.display());
    assert!(
        archive.is_file(),
        "{} is missing: run `make archive` first, or `make demo`, which does",
        archive.display()
    );
    println!("cargo:rustc-link-search=native={}", folder.display());
    println!("cargo:rustc-link-lib=static=addin");
}
