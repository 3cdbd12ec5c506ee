//! A count of rows on the error output while a long sheet is judged.
use std::io::{self, Write};
use std::time::{Duration, Instant};

const FIRST_AFTER: Duration = Duration::from_millis(500);
const EVERY: Duration = Duration::from_millis(200);

/// How many rows go by between looks at the clock.
const ROWS_PER_LOOK: u64 = 1024;

pub struct Progress {
    visible: bool,
    next: Instant,
    width: usize,
}

impl Progress {
    /// Never anything where it is not to be visible.
    pub fn new(visible: bool) -> Progress {
        Progress {
            visible,
            next: Instant::now() + FIRST_AFTER,
            width: 0,
        }
    }

    /// So many rows are judged by now.
    pub fn rows(&mut self, rows: u64) {
        if !self.visible || rows % ROWS_PER_LOOK != 0 || Instant::now() < self.next {
            return;
        }
        let text = format!("{rows} rows");
        self.show(&format!("\r{text}"));
        self.width = text.len();
        self.next = Instant::now() + EVERY;
    }

    /// Takes the count off the terminal.
    pub fn clear(&mut self) {
        if self.width > 0 {
            self.show(&format!("\r{:width$}\r", "", width = self.width));
            self.width = 0;
        }
    }

    /// A terminal that cannot be written to is no reason to stop.
    fn show(&self, text: &str) {
        let mut terminal = io::stderr();
        let _ = terminal.write_all(text.as_bytes());
        let _ = terminal.flush();
    }
}
