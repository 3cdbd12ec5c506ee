//! What a person should know beside the answers, on the error output.
use std::io::{self, Write};

pub fn show(notes: &[String]) {
    for note in notes {
        say(&format!("sheet: note: {note}"));
    }
}

/// An error output that cannot be written to is no reason to stop.
pub fn say(message: &str) {
    let _ = writeln!(io::stderr(), "{message}");
}
