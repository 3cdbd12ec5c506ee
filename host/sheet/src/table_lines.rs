//! Lines of a table, one under another: a name, texts in columns, and a last text of any length.
use crate::text::width;

/// How many lines are held until the width of their names is found, so that a sheet of any length needs little memory.
const HELD: usize = 1000;

/// The side on which texts begin or end.
#[derive(Clone, Copy)]
pub enum Side {
    Left,
    Right,
}

/// Where the texts of a column stand.
pub struct Slot {
    pub width: usize,
    pub side: Side,
}

impl Slot {
    /// A text in its place, and the gap to what follows.
    fn filled(&self, text: &str) -> String {
        let blanks = " ".repeat(self.width.saturating_sub(width(text)));
        match self.side {
            Side::Left => format!("{text}{blanks}  "),
            Side::Right => format!("{blanks}{text}  "),
        }
    }
}

pub struct TableLine {
    pub name: String,
    /// A text for each slot.
    pub texts: Vec<String>,
    /// Empty where there is nothing to say.
    pub last: String,
}

pub struct TableLines {
    heading: TableLine,
    slots: Vec<Slot>,
    /// No name takes more columns.
    widest_name: usize,
    output: String,
    /// Lines whose names' width is still to be found.
    held: Vec<TableLine>,
    name_width: Option<usize>,
}

impl TableLines {
    pub fn below(heading: TableLine, slots: Vec<Slot>, widest_name: usize) -> TableLines {
        TableLines {
            heading,
            slots,
            widest_name,
            output: String::new(),
            held: Vec::new(),
            name_width: None,
        }
    }

    pub fn add(&mut self, line: TableLine) {
        if self.name_width.is_none() && self.held.len() == HELD {
            // Whatever names are still to come, no line may stand under other headings.
            self.release(self.widest_name);
        }
        match self.name_width {
            Some(name_width) => {
                let line = self.aligned(&line, name_width);
                self.put(&line);
            }
            None => self.held.push(line),
        }
    }

    /// All lines, and below them the remarks.
    pub fn finish(mut self, remarks: &[&str]) -> String {
        if !self.held.is_empty() {
            let lines = self.held.iter().chain([&self.heading]);
            let names = lines.map(|line| width(&line.name));
            self.release(names.max().unwrap_or(0));
        }
        if !remarks.is_empty() {
            self.put("");
        }
        for remark in remarks {
            self.put(remark);
        }
        self.output
    }

    /// Puts what is held below the heading, its names aligned; later lines follow at once.
    fn release(&mut self, name_width: usize) {
        self.name_width = Some(name_width);
        let heading = self.aligned(&self.heading, name_width);
        self.put(&heading);
        self.put(&"─".repeat(width(&heading)));
        for line in std::mem::take(&mut self.held) {
            self.add(line);
        }
    }

    fn aligned(&self, line: &TableLine, name_width: usize) -> String {
        let name = Slot {
            width: name_width,
            side: Side::Left,
        };
        let slots = [&name].into_iter().chain(&self.slots);
        let texts = [&line.name].into_iter().chain(&line.texts);
        let mut text: String = slots
            .zip(texts)
            .map(|(slot, text)| slot.filled(text))
            .collect();
        text += &line.last;
        text.trim_end().to_owned()
    }

    fn put(&mut self, line: &str) {
        self.output += line;
        self.output += "\n";
    }
}
