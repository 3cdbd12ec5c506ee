//! What README.md says of the bindings is what holds.
use std::fs::read_to_string;
use std::path::Path;

fn in_host(path: &str) -> String {
    let folder = Path::new(env!("CARGO_MANIFEST_DIR")).join("..");
    read_to_string(folder.join(path)).unwrap()
}

/// The `rust-version` of a package.
fn rust_version(package: &str) -> String {
    let manifest = in_host(&format!("{package}/Cargo.toml"));
    let line = manifest
        .lines()
        .find_map(|line| line.strip_prefix("rust-version = "))
        .unwrap_or_else(|| panic!("{package} says no version"));
    line.trim_matches('"').to_owned()
}

#[test]
fn the_rust_that_each_package_needs() {
    let [bindings, sheet, second] = ["bindings", "sheet", "second"].map(rust_version);
    let said = format!("the bindings need {bindings}, the sheet {sheet}, the tests {second}");
    assert!(in_host("../README.md").contains(&said), "{said}");
}
