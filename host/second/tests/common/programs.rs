//! The built programs, and the files that the gate runs them on.
use std::io::Write;
use std::path::{Path, PathBuf};
use std::process::{Child, Command, Output, Stdio};
use std::time::Duration;

fn root() -> PathBuf {
    Path::new(env!("CARGO_MANIFEST_DIR")).join("../..")
}

/// The folder of a program's crate, where its stored files are.
pub fn crate_folder(name: &str) -> PathBuf {
    root().join("crates").join(name)
}

pub fn program_path(name: &str) -> PathBuf {
    root().join("target").join("bin").join(name)
}

/// Starts a built program.
pub fn start(name: &str) -> Child {
    let program = program_path(name);
    let started = Command::new(&program)
        .stdin(Stdio::piped())
        .stdout(Stdio::piped())
        .stderr(Stdio::piped())
        .spawn();
    started.unwrap_or_else(|why| panic!("{}: {why}; `make program` builds it", program.display()))
}

/// What a program does with an input that is written in pieces of this length, with a pause after each.
pub fn run_in_pieces(name: &str, input: &[u8], length: usize, pause: Duration) -> Output {
    let mut program = start(name);
    let mut stdin = program.stdin.take().expect("standard input is piped");
    std::thread::scope(|scope| {
        scope.spawn(move || {
            for piece in input.chunks(length) {
                // The program may end before it has read everything.
                if stdin.write_all(piece).and_then(|()| stdin.flush()).is_err() {
                    break;
                }
                std::thread::sleep(pause);
            }
        });
        program.wait_with_output().expect("the program ends")
    })
}

/// A program's stored files hold what this package makes anew; with `LVL_WRITE_STORED=1` in the environment they are written.
pub fn assert_stored(name: &str, input: &[u8], output: &str) {
    let folder = crate_folder(name);
    let files = [("stdin", input), ("stdout", output.as_bytes())];
    for (name, bytes) in files {
        let file = folder.join(name);
        if std::env::var_os("LVL_WRITE_STORED").is_some_and(|set| set == "1") {
            std::fs::create_dir_all(&folder).expect("the folder can be made");
            std::fs::write(&file, bytes).expect("the file can be written");
        }
        let stored = std::fs::read(&file).unwrap_or_else(|why| panic!("{}: {why}", file.display()));
        assert!(
            stored == bytes,
            "{} differs: LVL_WRITE_STORED=1 writes it anew",
            file.display()
        );
    }
}
