//! One row of a sheet, and what became of it.
use crate::columns::{typed, Column, Columns};
use crate::fields::{self, Fields};
use crate::headings::Heading;
use crate::judgement::{self, Judged, Refused};
use crate::lines::Line;
use crate::number::Typed;
use crate::schema::Ask;
use crate::used_strengths::UsedStrengths;
use crate::words::CellWords;
use lvl_addin::entry;
use std::borrow::Cow;

pub struct SheetRow<'a> {
    /// The line's number in the file, from 1.
    pub line: u64,
    /// The fields that have a column, as many as there are.
    pub fields: Vec<Cow<'a, [u8]>>,
    /// The fields further right.
    pub extra: Fields<'a>,
    /// In the order of the schema's.
    pub cells: Vec<Typed>,
    pub columns: &'a Columns,
}

/// What became of a row.
#[derive(Clone, Copy, Debug, PartialEq, Eq)]
pub enum Outcome {
    Passed,
    Failed,
    WithStrengths,
    Packed,
    Refused,
}

impl Outcome {
    pub fn of_judged(judged: &Judged) -> Outcome {
        match judgement::governing(judged) {
            Ok(governing) if governing.passes => Outcome::Passed,
            Ok(_) => Outcome::Failed,
            Err(_) => Outcome::Refused,
        }
    }

    /// A row that fails has strengths like any other.
    pub fn of_strengths(found: &Result<UsedStrengths, Refused>) -> Outcome {
        match found {
            Ok(_) => Outcome::WithStrengths,
            Err(_) => Outcome::Refused,
        }
    }
}

impl<'a> SheetRow<'a> {
    pub fn read(line: &Line<'a>, columns: &'a Columns) -> SheetRow<'a> {
        let (fields, extra) = columns.split(line.text);
        let mut cells = vec![Typed::Blank; columns.schema.cells.len()];
        for (column, field) in columns.iter().zip(&fields) {
            if let Column::Holds(Heading::Cell(place)) = column {
                cells[place - 1] = typed(field, columns.separator);
            }
        }
        SheetRow {
            line: line.number,
            fields,
            extra,
            cells,
            columns,
        }
    }

    /// What the add-in finds.
    pub fn judged(&self) -> Judged {
        self.asked(self.columns.schema.judge)
    }

    /// The strengths that the add-in's checks use.
    pub fn strengths(&self) -> Result<UsedStrengths, Refused> {
        self.asked(self.columns.schema.strengths)
    }

    /// The bytes that the add-in packs a member's row into.
    pub fn packed(&self) -> Result<Vec<u8>, Refused> {
        self.asked(|cells| entry::pack(cells.try_into().expect("only members are packed")))
    }

    fn asked<Found>(&self, ask: Ask<Found>) -> Result<Found, Refused> {
        ask(&self.host_cells()?).map_err(Refused::ByAddin)
    }

    /// The cells for the add-in, unless it is not clear which are meant.
    fn host_cells(&self) -> Result<Vec<Option<f64>>, Refused> {
        if self.open_quote().is_some() {
            Err(Refused::OpenQuote)
        } else if self.extra_column().is_some() {
            Err(Refused::ExtraColumn)
        } else {
            Ok(self.cells.iter().map(|cell| cell.host_cell()).collect())
        }
    }

    /// Whether text stands where a number has to, a quote is open, or no cell is filled: the line may be no row.
    pub fn may_be_no_row(&self) -> bool {
        let is_blank = |cell: &Typed| *cell == Typed::Blank;
        self.cells.contains(&Typed::Text)
            || self.open_quote().is_some()
            || self.cells.iter().all(is_blank)
    }

    /// The first column with an open quote: its number in the file, from 1, and its content.
    pub fn open_quote(&self) -> Option<(usize, Cow<'a, [u8]>)> {
        let fields = self.fields.iter().cloned().chain(self.extra.clone());
        (1..).zip(fields).find(|(_, field)| fields::is_open(field))
    }

    /// The first filled column that holds nothing known: its number in the file, from 1, and its content.
    pub fn extra_column(&self) -> Option<(usize, Cow<'a, [u8]>)> {
        let unheaded = self
            .columns
            .iter()
            .zip(&self.fields)
            .enumerate()
            .filter(|(_, (column, _))| *column == Column::Unheaded)
            .map(|(place, (_, field))| (place, field.clone()));
        unheaded
            .chain((self.columns.width()..).zip(self.extra.clone()))
            .find(|(_, field)| !fields::is_empty(field))
            .map(|(place, field)| (place + 1, field))
    }

    /// The name, or the line where there is none.
    pub fn name(&self) -> String {
        let field = self.field(Heading::Member);
        match field.filter(|field| !fields::is_empty(field)) {
            Some(name) => String::from_utf8_lossy(name).trim().to_owned(),
            None => format!("line {}", self.line),
        }
    }

    /// A cell as it was typed, by its place.
    pub fn cell(&self, place: usize) -> Typed {
        self.cells[place - 1]
    }

    /// What was typed into the cell with this number in a row; nothing where the schema does without it.
    pub fn numbered(&self, number: usize) -> Typed {
        let cell = self.columns.schema.numbered(number);
        cell.map_or(Typed::Blank, |(place, _)| self.cell(place))
    }

    /// The words for a cell, by its place.
    pub fn words(&self, place: usize) -> &'static CellWords {
        self.columns.schema.cell(place).words
    }

    /// The kind that was typed, if there is one.
    pub fn kind(&self) -> Option<u64> {
        let place = self.columns.schema.kind?;
        self.cell(place).whole()
    }

    /// A cell's text, by its place.
    pub fn text(&self, place: usize) -> Cow<'_, str> {
        match self.field(Heading::Cell(place)) {
            Some(field) => String::from_utf8_lossy(field),
            None => Cow::Borrowed(""),
        }
    }

    fn field(&self, heading: Heading) -> Option<&Cow<'a, [u8]>> {
        self.fields.get(self.columns.place_of(heading)?)
    }
}
