//! The lines of a text, whatever ends them: line feed, carriage return or both.
//!
//! A quoted field may hold line breaks; its line then reaches over several. A quote that is not closed in the way of RFC 4180, or
//! that stands where a number has to, is a letter like any other: it spoils its own line alone. Where a quote is closed so far
//! down that members would be lost, it cannot be told which of the quotes is the mistake, and the line says so.
use crate::columns::{is_number, Columns, NUMBERS_OF_A_MEMBER};
use crate::header;
use crate::schema::Schema;
use std::slice;

/// What is known of a line's fields before it is read.
#[derive(Clone, Copy)]
pub enum Shape<'a> {
    /// They are separated by one of these, and such a sheet's.
    Separated(&'a [u8], &'a Schema),
    /// They stand in these columns.
    In(&'a Columns),
}

#[derive(Clone, Copy, Debug)]
pub struct Line<'a> {
    /// Of its first line, from 1.
    pub number: u64,
    /// Without the line's end.
    pub text: &'a [u8],
    /// The line in which a quote of this one may be closed, if members would then be lost.
    pub closed_in: Option<u64>,
}

/// Where a line ends.
struct End {
    at: usize,
    /// Where a quote may be closed that counts as never closed.
    doubt: Option<usize>,
}

/// The lines that are still to come.
#[derive(Clone, Copy, Debug)]
pub struct Lines<'a> {
    rest: &'a [u8],
    /// How many line ends stand before it.
    ends: u64,
}

impl<'a> Lines<'a> {
    pub fn of(text: &'a [u8]) -> Lines<'a> {
        Lines {
            rest: text,
            ends: 0,
        }
    }

    /// The next line, if there is one.
    pub fn next_line(&mut self, shape: Shape) -> Option<Line<'a>> {
        if self.rest.is_empty() {
            return None;
        }
        let end = shape
            .end_of_header(self.rest)
            .unwrap_or_else(|| end_of_fields(self.rest, shape));
        let number = self.ends + 1;
        let line = Line {
            number,
            text: &self.rest[..end.at],
            closed_in: end.doubt.map(|close| number + ends_in(&self.rest[..close])),
        };
        self.ends += ends_in(line.text) + 1;
        self.rest = after_end(&self.rest[end.at..]);
        Some(line)
    }
}

impl Shape<'_> {
    fn separators(&self) -> &[u8] {
        match self {
            Shape::Separated(separators, _) => separators,
            Shape::In(columns) => slice::from_ref(&columns.separator),
        }
    }

    fn schema(&self) -> &Schema {
        match self {
            Shape::Separated(_, schema) => schema,
            Shape::In(columns) => columns.schema,
        }
    }

    /// Whether the field at this place may hold line breaks: that of a cell may not.
    fn is_text(&self, place: usize) -> bool {
        match self {
            Shape::Separated(..) => true,
            Shape::In(columns) => place < columns.width() && !columns.is_cell(place),
        }
    }

    /// Where the header ends that begins here, of a further page, if it is one whose headings hold line breaks.
    fn end_of_header(&self, text: &[u8]) -> Option<End> {
        let Shape::In(columns) = self else {
            return None;
        };
        let separators = slice::from_ref(&columns.separator);
        let first_line = &text[..end_of_line(text, 0)];
        if !header::is_open(first_line, separators, columns.schema) {
            return None;
        }
        let end = end_of_fields(text, Shape::Separated(separators, columns.schema));
        header::is_repeated(&text[..end.at], columns).then_some(end)
    }

    /// Whether a line, or a part of one that begins at this place, is a member's or a header.
    fn is_member_or_header(&self, place: usize, line: &[u8]) -> bool {
        let numbers = match self {
            Shape::In(columns) => columns.numbers_from(place, line),
            Shape::Separated(separators, _) => {
                let counts = separators.iter().map(|separator| {
                    let fields = line.split(|byte| byte == separator);
                    fields.filter(|field| is_number(field, *separator)).count()
                });
                counts.max().unwrap_or(0)
            }
        };
        numbers >= NUMBERS_OF_A_MEMBER || header::is_certain(line, self.separators(), self.schema())
    }

    /// Whether the line in which a field at this place is closed is a member by itself, more of whose numbers stand in columns of
    /// cells than after this field.
    fn is_member_apart(&self, place: usize, line: &[u8], after_field: &[u8]) -> bool {
        let Shape::In(columns) = self else {
            return false;
        };
        let apart = columns.numbers_from(0, line);
        apart >= NUMBERS_OF_A_MEMBER && apart > columns.numbers_from(place, after_field)
    }
}

/// Where the line ends that begins here, with the line breaks that its quoted fields hold.
fn end_of_fields(text: &[u8], shape: Shape) -> End {
    let separators = shape.separators();
    let mut end = end_of_line(text, 0);
    let mut field = 0;
    for place in 0.. {
        let mut after = field;
        if text[field..end].starts_with(b"\"") {
            let inside = field + 1;
            match closing_quote(text, inside, separators) {
                Some(close) if close < end => after = close + 1,
                Some(close) if shape.is_text(place) => {
                    if loses_a_member(text, inside, close, place, shape) {
                        let doubt = Some(close);
                        return End { at: end, doubt };
                    }
                    after = close + 1;
                    end = end_of_line(text, after);
                }
                // A letter like any other.
                _ => {}
            }
        }
        let separator = text[after..end]
            .iter()
            .position(|byte| separators.contains(byte));
        match separator {
            Some(at) => field = after + at + 1,
            None => break,
        }
    }
    End {
        at: end,
        doubt: None,
    }
}

/// Where the next quote stands that is not doubled, if it closes a field: a separator or a line end follows, after blanks at most.
fn closing_quote(text: &[u8], inside: usize, separators: &[u8]) -> Option<usize> {
    let mut from = inside;
    loop {
        let at = from + text[from..].iter().position(|byte| *byte == b'"')?;
        if text.get(at + 1) != Some(&b'"') {
            let ends_field = |byte: &u8| is_end(byte) || separators.contains(byte);
            let is_filling = |byte: &u8| byte.is_ascii_whitespace() && !ends_field(byte);
            let next = text[at + 1..].iter().find(|byte| !is_filling(byte));
            let is_closed = next.map_or(true, ends_field);
            return is_closed.then_some(at);
        }
        from = at + 2;
    }
}

/// Whether a member, or a header, would be lost if what stands between two quotes of different lines were one field.
fn loses_a_member(text: &[u8], inside: usize, close: usize, place: usize, shape: Shape) -> bool {
    // The first part goes on in the line of the quote, the others begin lines.
    let places = [place].into_iter().chain(std::iter::repeat(0));
    let mut swallowed = places.zip(text[inside..close].split(is_end));
    let start = text[..close].iter().rposition(is_end);
    let last_line = start.map_or(0, |at| at + 1);
    let end = end_of_line(text, close);
    swallowed.any(|(place, part)| shape.is_member_or_header(place, part))
        || shape.is_member_apart(place, &text[last_line..end], &text[close + 1..end])
}

fn is_end(byte: &u8) -> bool {
    matches!(byte, b'\n' | b'\r')
}

fn end_of_line(text: &[u8], from: usize) -> usize {
    let end = text[from..].iter().position(is_end);
    end.map_or(text.len(), |at| from + at)
}

/// What follows the line end that a text begins with, if it does.
fn after_end(text: &[u8]) -> &[u8] {
    match text {
        [b'\r', b'\n', rest @ ..] | [b'\r' | b'\n', rest @ ..] => rest,
        _ => text,
    }
}

fn ends_in(text: &[u8]) -> u64 {
    let feeds = text.iter().filter(|byte| **byte == b'\n').count();
    let returns = text.iter().filter(|byte| **byte == b'\r').count();
    let both = text.windows(2).filter(|pair| pair == b"\r\n").count();
    (feeds + returns - both) as u64
}
