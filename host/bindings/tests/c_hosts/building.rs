//! Compiles hosts against the header, links them with the archive and runs them.
use std::path::{Path, PathBuf};
use std::process::Command;

pub struct Language {
    pub compiler: &'static str,
    pub standard: &'static str,
    pub name: &'static str,
}

pub const C99: Language = Language {
    compiler: "gcc",
    standard: "-std=c99",
    name: "c",
};
pub const CPP11: Language = Language {
    compiler: "g++",
    standard: "-std=c++11",
    name: "c++",
};

const WARNINGS: [&str; 4] = ["-Wall", "-Wextra", "-pedantic", "-Werror"];

/// What a program of one source prints.
pub fn printed(language: &Language, name: &str, source: &Path) -> String {
    let program = scratch(name);
    succeed(
        compile(language)
            .arg(source)
            .arg(archive())
            .arg("-o")
            .arg(&program),
    );
    succeed(&mut Command::new(program))
}

/// The compiler's command, up to the files.
pub fn compile(language: &Language) -> Command {
    let mut command = Command::new(language.compiler);
    command
        .arg(language.standard)
        .args(WARNINGS)
        .arg("-I")
        .arg(include_folder());
    command
}

/// What a command prints that has to succeed.
pub fn succeed(command: &mut Command) -> String {
    let output = command
        .output()
        .unwrap_or_else(|error| panic!("{command:?}: {error}"));
    let errors = String::from_utf8_lossy(&output.stderr);
    assert!(output.status.success(), "{command:?}: {errors}");
    String::from_utf8(output.stdout).unwrap()
}

fn package() -> PathBuf {
    PathBuf::from(env!("CARGO_MANIFEST_DIR"))
}

pub fn archive() -> PathBuf {
    package().join("../../target/staticlib/libaddin.a")
}

pub fn include_folder() -> PathBuf {
    package().join("../../include")
}

/// The header's text.
pub fn header() -> String {
    std::fs::read_to_string(include_folder().join("lvl_addin.h")).unwrap()
}

pub fn source(name: &str) -> PathBuf {
    package().join("tests/c").join(name)
}

pub fn scratch(name: &str) -> PathBuf {
    PathBuf::from(env!("CARGO_TARGET_TMPDIR")).join(name)
}
