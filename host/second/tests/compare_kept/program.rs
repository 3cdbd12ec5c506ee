//! The built program `replay`, and what it prints.
use crate::programs::{run_in_pieces, start};
use lvl_second::replay::call_bytes;
use lvl_second::Call;
use std::io::{BufRead, BufReader, BufWriter, Read, Write};
use std::process::ExitStatus;
use std::time::Duration;

/// How much is written and read at once.
const BUFFER: usize = 1 << 16;

/// Runs the program on calls, which are made while it runs, and hands over each line as it comes, its end included.
pub fn run(calls: impl Iterator<Item = Call> + Send, mut take: impl FnMut(&[u8])) {
    let mut program = start("replay");
    let stdin = program.stdin.take().expect("standard input is piped");
    let stdout = program.stdout.take().expect("standard output is piped");
    let ended = std::thread::scope(|scope| {
        scope.spawn(|| {
            let mut stdin = BufWriter::with_capacity(BUFFER, stdin);
            for call in calls {
                // The program that ends early is seen by its status and by its lines.
                if stdin.write_all(&call_bytes(&call)).is_err() {
                    return;
                }
            }
            let _ = stdin.flush();
        });
        let mut stdout = BufReader::with_capacity(BUFFER, stdout);
        let mut line = Vec::new();
        while stdout.read_until(b'\n', &mut line).expect("lines") > 0 {
            take(&line);
            line.clear();
        }
        program.wait_with_output().expect("the program ends")
    });
    assert_eq!(String::from_utf8_lossy(&ended.stderr), "");
    assert!(ended.status.success(), "{}", ended.status);
}

/// How a run ended: its status, and what it printed and said.
pub struct Ended {
    pub status: ExitStatus,
    pub printed: String,
    pub said: String,
}

/// Runs the program on bytes.
pub fn ended(input: &[u8]) -> Ended {
    ended_in_pieces(input, input.len().max(1), Duration::ZERO)
}

/// Runs the program on bytes that are written in pieces of this length, with a pause after each.
pub fn ended_in_pieces(input: &[u8], length: usize, pause: Duration) -> Ended {
    let output = run_in_pieces("replay", input, length, pause);
    Ended {
        status: output.status,
        printed: text(&output.stdout[..]),
        said: text(&output.stderr[..]),
    }
}

fn text(mut bytes: impl Read) -> String {
    let mut text = String::new();
    bytes
        .read_to_string(&mut text)
        .expect("the program prints text");
    text
}
