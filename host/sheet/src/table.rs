//! A table that a person reads: for each row a line, with what is found of it or why it is refused.
use crate::judgement::Refused;
use crate::moment_doubts::{Doubt, MomentDoubts};
use crate::number::Typed;
use crate::opening::Opening;
use crate::row::{Outcome, SheetRow};
use crate::schema::Schema;
use crate::table_lines::{Side, Slot, TableLine, TableLines};
use crate::text::shown;
use crate::{reasons, Report};

/// The most columns that a name is shown in.
const NAME: usize = 40;

/// Stands where there is nothing to say.
pub const NONE: &str = "–";

/// Stands for what was typed but cannot be shown.
pub const UNSHOWN: &str = "?";

/// What a table shows of what is found of each row.
pub struct Layout<Found> {
    pub find: fn(&SheetRow) -> Result<Found, Refused>,
    pub outcome: fn(&Result<Found, Refused>) -> Outcome,
    /// Between the names and the last column.
    pub columns: Vec<TableColumn<Found>>,
    pub last_heading: &'static str,
    /// What the last column says of a row; of a refused one it says the reason.
    pub last: fn(&SheetRow, &Found) -> String,
    /// What is doubtful about the moment that a row asks with.
    pub doubt: fn(&SheetRow, &Result<Found, Refused>) -> Option<Doubt>,
    /// What a reader should know, in lines below the others.
    pub remarks: Vec<&'static str>,
}

pub struct TableColumn<Found> {
    pub heading: &'static str,
    pub width: usize,
    pub side: Side,
    pub text: fn(&SheetRow, &Result<Found, Refused>) -> String,
}

/// The words for a whole number that was typed; a dash for a blank cell, a question mark where there are no words.
pub fn typed_as<Words: Into<String>>(cell: Typed, words: impl Fn(u64) -> Option<Words>) -> String {
    match (cell, cell.whole().and_then(words)) {
        (_, Some(words)) => words.into(),
        (Typed::Blank, None) => NONE.to_owned(),
        _ => UNSHOWN.to_owned(),
    }
}

/// A whole number of at most so many digits, as it was typed.
pub fn whole_number(cell: Typed, digits: u32) -> String {
    typed_as(cell, |whole| {
        (whole < 10_u64.pow(digits)).then(|| whole.to_string())
    })
}

pub struct Table<Found: 'static> {
    layout: &'static Layout<Found>,
    /// The one in its place where a row asks for what is on request.
    on_request: Option<&'static Layout<Found>>,
    lines: TableLines,
    doubts: MomentDoubts,
}

impl<Found> Table<Found> {
    pub fn new(schema: &Schema, layout: &'static Layout<Found>) -> Table<Found> {
        let slot = |column: &TableColumn<Found>| Slot {
            width: column.width,
            side: column.side,
        };
        let slots = layout.columns.iter().map(slot).collect();
        Table {
            layout,
            on_request: None,
            lines: TableLines::below(heading(schema, layout), slots, NAME),
            doubts: MomentDoubts::default(),
        }
    }

    /// With another layout for a sheet in which a row asks for what is on request.
    pub fn with(mut self, on_request: Option<&'static Layout<Found>>) -> Table<Found> {
        self.on_request = on_request;
        self
    }
}

impl<Found> Report for Table<Found> {
    fn begin(&mut self, opening: &Opening) {
        let on_request = self.on_request.filter(|_| opening.columns.requested);
        if let Some(layout) = on_request {
            *self = Table::new(opening.columns.schema, layout);
        }
    }

    fn row(&mut self, row: &SheetRow) -> Outcome {
        let found = (self.layout.find)(row);
        self.lines.add(line(row, &found, self.layout));
        self.doubts.add(row, (self.layout.doubt)(row, &found));
        (self.layout.outcome)(&found)
    }

    fn notes(&self) -> Vec<String> {
        self.doubts.notes()
    }

    fn finish(self) -> Vec<u8> {
        self.lines.finish(&self.layout.remarks).into_bytes()
    }
}

fn heading<Found>(schema: &Schema, layout: &Layout<Found>) -> TableLine {
    let columns = layout.columns.iter();
    TableLine {
        name: schema.name_heading.to_owned(),
        texts: columns.map(|column| column.heading.to_owned()).collect(),
        last: layout.last_heading.to_owned(),
    }
}

fn line<Found>(
    row: &SheetRow,
    found: &Result<Found, Refused>,
    layout: &Layout<Found>,
) -> TableLine {
    let columns = layout.columns.iter();
    TableLine {
        name: shown(&row.name(), NAME),
        texts: columns.map(|column| (column.text)(row, found)).collect(),
        last: match found {
            Ok(found) => (layout.last)(row, found),
            Err(refused) => reasons::reason(*refused, row),
        },
    }
}
