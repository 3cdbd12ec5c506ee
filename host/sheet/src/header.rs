//! Whether a line is a header.
use crate::columns::{is_number, Basis, Column, Columns};
use crate::fields::{self, Fields};
use crate::headings::{self, Heading, Meaning};
use crate::schema::{self, Schema};
use crate::separator;
use std::borrow::Cow;
use std::collections::HashSet;

/// A longer line is no header: no spreadsheet has so many columns.
const LONGEST: usize = 1 << 20;

/// No heading that is known is as long.
const LONGEST_HEADING: usize = 200;

/// One known heading may be chance, as in a member that is called B and has nothing else filled.
const FEWEST_KNOWN: usize = 2;

/// So many are no chance any more, not even beside numbers or inside a quote that is not closed.
const CERTAIN: usize = 3;

/// A line that is a header.
pub struct Found {
    pub separator: u8,
    /// How many different headings it has that are known.
    pub known: usize,
}

/// Reads a line as a header, with that of these separators that makes most sense of it.
pub fn found_in(line: &[u8], separators: &[u8], schema: &Schema) -> Option<Found> {
    likeliest_last(line, separators)
        .into_iter()
        .filter(|separator| is_header(line, *separator, schema))
        .map(|separator| Found {
            separator,
            known: known_headings(line, separator, schema),
        })
        .max_by_key(|found| found.known)
}

/// Whether a line is a header, and so many of its headings are known that it is no chance.
pub fn is_clear(line: &[u8], separators: &[u8], schema: &Schema) -> bool {
    found_in(line, separators, schema).is_some_and(|header| header.known >= CERTAIN)
}

/// Whether so many headings of a line are known that it is meant to be a header.
pub fn is_certain(line: &[u8], separators: &[u8], schema: &Schema) -> bool {
    line.len() <= LONGEST
        && separators
            .iter()
            .any(|separator| known_headings(line, *separator, schema) >= CERTAIN)
}

/// Whether a line that is no header would be one, were it not for a number or an open quote among its headings.
pub fn is_spoilt(line: &[u8], separators: &[u8], schema: &Schema) -> bool {
    is_certain(line, separators, schema) || is_open(line, separators, schema)
}

/// Whether a line would be a header, were it not for a quote that is open or around all of it.
pub fn is_open(line: &[u8], separators: &[u8], schema: &Schema) -> bool {
    let hides_fields = |separator: &u8| {
        let mut fields = Fields::of(line, *separator);
        fields.clone().nth(1).is_none() || fields.any(|field| fields::is_open(&field))
    };
    let bytes = line.iter().copied();
    let without_quotes = || -> Vec<u8> { bytes.filter(|byte| *byte != b'"').collect() };
    line.contains(&b'"')
        && separators.iter().any(hides_fields)
        && is_certain(&without_quotes(), separators, schema)
}

/// Whether a line has words in many columns and no number, in a sheet where this makes it a header.
pub fn has_words_alone(line: &[u8], separators: &[u8], schema: &Schema) -> bool {
    let Some(fewest) = schema.words_of_a_header else {
        return false;
    };
    let has_words = |separator: &u8| {
        let fields = Fields::of(line, *separator).filter(|field| !fields::is_blank(field));
        fields.take(fewest).count() == fewest && !has_number(line, *separator)
    };
    separators.iter().any(has_words)
}

/// What a sheet lists that knows more of a header's headings than such a sheet does, if there is one.
pub fn rather_of(header: &[u8], separator: u8, schema: &Schema) -> Option<&'static Schema> {
    let known = known_headings(header, separator, schema);
    let knows_more = |other: &&Schema| known_headings(header, separator, other) > known;
    schema::all().into_iter().find(knows_more)
}

/// What a line below the header is.
#[derive(Clone, Copy, PartialEq, Eq)]
pub enum Below {
    Row,
    /// The sheet's own header, as at the top of a further page.
    Repeated,
    /// A header of other columns: those of another table, or of one that was not found.
    Another,
}

pub fn below(line: &[u8], columns: &Columns) -> Below {
    let (separator, schema) = (columns.separator, columns.schema);
    if columns.basis == Basis::Headings && is_repeated(line, columns) {
        Below::Repeated
    } else if is_header(line, separator, schema) || is_spoilt(line, &[separator], schema) {
        Below::Another
    } else {
        Below::Row
    }
}

/// Whether every column of a name or cell is headed by what it holds, and no number stands beside but for answers.
pub fn is_repeated(line: &[u8], columns: &Columns) -> bool {
    let mut fields = Fields::of(line, columns.separator);
    let is_number = |field: &[u8]| is_number(field, columns.separator);
    let are_headed = columns.iter().all(|column| {
        let field = fields.next().unwrap_or_default();
        match column {
            Column::Holds(heading @ (Heading::Member | Heading::Cell(_))) => {
                let text = String::from_utf8_lossy(&field);
                headings::read_in(columns.schema, &text) == Meaning::Known(heading)
            }
            Column::Holds(Heading::Answer(_)) => true,
            Column::Skipped | Column::Unheaded => !is_number(&field),
        }
    });
    are_headed && !fields.any(|field| is_number(&field))
}

/// For a header below the header, or below rows.
pub fn another(line: u64) -> String {
    format!("line {line} is another header: one table a sheet, with one header on top")
}

/// A header's headings.
pub fn texts(header: &[u8], separator: u8) -> Vec<String> {
    Fields::of(header, separator)
        .map(|field| String::from_utf8_lossy(&field).into_owned())
        .collect()
}

pub fn has_number(line: &[u8], separator: u8) -> bool {
    Fields::of(line, separator).any(|field| is_number(&field, separator))
}

fn is_header(line: &[u8], separator: u8, schema: &Schema) -> bool {
    line.len() <= LONGEST
        && !has_number(line, separator)
        && known_headings(line, separator, schema) >= FEWEST_KNOWN
}

fn likeliest_last(line: &[u8], separators: &[u8]) -> Vec<u8> {
    let likeliest = separator::most_frequent(line);
    let mut sorted = separators.to_vec();
    sorted.sort_by_key(|separator| *separator == likeliest);
    sorted
}

/// How many different headings a line has that are known, those with another unit among them.
fn known_headings(line: &[u8], separator: u8, schema: &Schema) -> usize {
    let is_short = |field: &Cow<[u8]>| field.len() <= LONGEST_HEADING;
    let meaning = |field: &[u8]| headings::read_in(schema, &String::from_utf8_lossy(field));
    let named = |field: Cow<[u8]>| match meaning(&field) {
        Meaning::Known(heading) => Some(heading),
        Meaning::OtherUnit(cell) => Some(Heading::Cell(cell)),
        Meaning::Empty | Meaning::Unknown => None,
    };
    let fields = Fields::of(line, separator).filter(is_short);
    let known: HashSet<Heading> = fields.filter_map(named).collect();
    known.len()
}
