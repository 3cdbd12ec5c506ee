//! What each column of a sheet holds, its separator and its decimal mark.
use crate::answers::Answer;
use crate::fields::{self, Fields};
use crate::headings::{self, Heading, Meaning};
use crate::members;
use crate::number::{self, DecimalMark, Typed};
use crate::schema::{Cell, Schema};
use std::borrow::Cow;

/// A line with so many numbers in the columns of cells is a member's: the least that is filled has nine, a floor beam eight.
pub const NUMBERS_OF_A_MEMBER: usize = 5;

/// How a person wants the columns to be taken.
#[derive(Clone, Debug)]
pub struct ColumnOptions {
    /// What the sheet lists.
    pub schema: &'static Schema,
    /// By the order of the cells, whatever their headings say.
    pub by_position: bool,
    /// Headings of columns that are passed over.
    pub skip: Vec<String>,
}

impl Default for ColumnOptions {
    fn default() -> ColumnOptions {
        ColumnOptions {
            schema: members::schema(),
            by_position: false,
            skip: Vec::new(),
        }
    }
}

#[derive(Clone, Copy, Debug, PartialEq, Eq)]
pub enum Column {
    Holds(Heading),
    /// The office's own, passed over.
    Skipped,
    /// Nothing may stand there.
    Unheaded,
}

/// What decides which column holds what.
#[derive(Clone, Copy, Debug, PartialEq, Eq)]
pub enum Basis {
    Headings,
    /// The order of the cells, since there is no header.
    NoHeader,
    /// The order of the cells, since it was asked for.
    Asked,
}

#[derive(Debug)]
pub struct Columns {
    pub schema: &'static Schema,
    pub separator: u8,
    pub basis: Basis,
    /// Whether a row asks for what is on request.
    pub requested: bool,
    /// Fields further right are as good as unheaded.
    columns: Vec<Column>,
}

impl Columns {
    pub fn new(
        schema: &'static Schema,
        separator: u8,
        basis: Basis,
        columns: Vec<Column>,
    ) -> Columns {
        Columns {
            schema,
            separator,
            basis,
            requested: false,
            columns,
        }
    }

    /// The names, unless the first column is the first cell's, the cells in their order, and an earlier run's answers.
    /// Where these follow sooner, there are no columns for what is on request.
    pub fn in_order_below(
        header: &[u8],
        schema: &'static Schema,
        separator: u8,
        basis: Basis,
    ) -> Columns {
        let first = Fields::of(header, separator).next().unwrap_or_default();
        let first = String::from_utf8_lossy(&first);
        let says_cell = |part: &&str| first.to_lowercase().contains(part);
        let is_cell = headings::read_in(schema, &first) == Meaning::Known(Heading::Cell(1))
            || schema.in_first_cell.iter().any(says_cell);
        let mut columns = Columns::in_order(schema, separator, basis, !is_cell);
        let without_request = columns.without_request();
        if without_request.answers_headed(header) > 0 {
            columns = without_request;
        }
        let answers = (0..columns.answers_headed(header)).map(Heading::Answer);
        columns.columns.extend(answers.map(Column::Holds));
        columns
    }

    /// Without a header: the names, unless the first row begins with a number or nothing, and the cells.
    pub fn in_order_from(
        row: &[u8],
        schema: &'static Schema,
        separator: u8,
        basis: Basis,
    ) -> Columns {
        let first = Fields::of(row, separator).next().unwrap_or_default();
        let named = !is_number(&first, separator) && !fields::is_empty(&first);
        Columns::in_order(schema, separator, basis, named)
    }

    fn in_order(schema: &'static Schema, separator: u8, basis: Basis, named: bool) -> Columns {
        let member = named.then_some(Heading::Member);
        let cells = (1..=schema.cells.len()).map(Heading::Cell);
        let columns = member.into_iter().chain(cells).map(Column::Holds).collect();
        Columns::new(schema, separator, basis, columns)
    }

    /// How many answers of an earlier run are headed right after the cells.
    fn answers_headed(&self, header: &[u8]) -> usize {
        let answers = &self.schema.answers;
        let after_cells = Fields::of(header, self.separator).skip(self.width());
        let is_headed =
            |(answer, field): &(&Answer, Cow<[u8]>)| field.as_ref() == answer.heading.as_bytes();
        let headed = answers
            .iter()
            .zip(after_cells)
            .take_while(is_headed)
            .count();
        let of_a_run = [answers.len(), self.schema.answers_without_request()];
        of_a_run.into_iter().find(|run| headed >= *run).unwrap_or(0)
    }

    /// The same without columns at the end for the cells of what is on request.
    pub fn without_request(&self) -> Columns {
        let is_on_request = |column: &&Column| self.is_on_request(**column);
        let dropped = self.columns.iter().rev().take_while(is_on_request).count();
        Columns {
            columns: self.columns[..self.width() - dropped].to_vec(),
            ..*self
        }
    }

    fn is_on_request(&self, column: Column) -> bool {
        matches!(column, Column::Holds(Heading::Cell(place)) if self.schema.is_on_request(place))
    }

    /// The places of the columns, from 0, in which a row asks for what is on request.
    pub fn on_request(&self) -> Vec<usize> {
        let is_on_request = |place: &usize| self.is_on_request(self.columns[*place]);
        (0..self.width()).filter(is_on_request).collect()
    }

    /// The cells, those of what is on request only where a column holds one.
    pub fn cells(&self) -> &'static [Cell] {
        let without_request = self.schema.cells_without_request();
        match self.on_request().is_empty() {
            true => &self.schema.cells[..without_request],
            false => &self.schema.cells,
        }
    }

    /// What a heading's text is in a sheet with these cells.
    pub fn meaning(&self, text: &str) -> Meaning {
        match headings::read_in(self.schema, text) {
            Meaning::Known(Heading::Cell(place)) if place > self.cells().len() => Meaning::Unknown,
            meaning => meaning,
        }
    }

    pub fn last_cell(&self) -> &'static Cell {
        self.cells().last().expect("there are cells")
    }

    /// In which units loads and forces have to be.
    pub fn loads_wanted(&self) -> &'static str {
        match &self.schema.on_request {
            Some(on_request) if !self.on_request().is_empty() => on_request.loads_wanted,
            _ => self.schema.loads_wanted,
        }
    }

    /// The answers, those of what is on request where a row asks for it or an earlier run has left them.
    pub fn answers(&self) -> &'static [Answer] {
        let without_request = self.schema.answers_without_request();
        match self.requested || self.place_of(Heading::Answer(without_request)).is_some() {
            true => &self.schema.answers,
            false => &self.schema.answers[..without_request],
        }
    }

    /// How many columns there are.
    pub fn width(&self) -> usize {
        self.columns.len()
    }

    pub fn iter(&self) -> impl Iterator<Item = Column> + '_ {
        self.columns.iter().copied()
    }

    /// Whether the column at this place, from 0, holds a cell.
    pub fn is_cell(&self, place: usize) -> bool {
        let column = self.columns.get(place);
        matches!(column, Some(Column::Holds(Heading::Cell(_))))
    }

    /// How many numbers stand in columns of cells, where the first of these fields is at this place.
    pub fn numbers_from(&self, place: usize, fields: &[u8]) -> usize {
        (place..)
            .zip(Fields::of(fields, self.separator))
            .filter(|(place, field)| self.is_cell(*place) && is_number(field, self.separator))
            .count()
    }

    /// The place of the column that holds this, from 0.
    pub fn place_of(&self, heading: Heading) -> Option<usize> {
        self.iter()
            .position(|column| column == Column::Holds(heading))
    }

    /// The fields of a line that have a column, as many as there are, and those further right.
    pub fn split<'a>(&self, line: &'a [u8]) -> (Vec<Cow<'a, [u8]>>, Fields<'a>) {
        let mut rest = Fields::of(line, self.separator);
        let fields = rest.by_ref().take(self.width()).collect();
        (fields, rest)
    }
}

/// What a field's bytes are as a cell.
pub fn typed(field: &[u8], separator: u8) -> Typed {
    match std::str::from_utf8(field) {
        Ok(text) => number::read(text, decimal_mark(separator)),
        Err(_) => Typed::Text,
    }
}

pub fn is_number(field: &[u8], separator: u8) -> bool {
    matches!(typed(field, separator), Typed::Number(_) | Typed::Unclear)
}

/// A comma that separates fields is no decimal mark.
fn decimal_mark(separator: u8) -> DecimalMark {
    match separator {
        b',' => DecimalMark::Point,
        _ => DecimalMark::PointOrComma,
    }
}
