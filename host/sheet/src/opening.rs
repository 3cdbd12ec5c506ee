//! The first lines of a sheet: a hint at its separator, title lines, its header.
use crate::columns::{is_number, Basis, ColumnOptions, Columns, NUMBERS_OF_A_MEMBER};
use crate::fields::{self, Fields, SEPARATORS};
use crate::lines::{Line, Lines, Shape};
use crate::schema::{self, Schema};
use crate::separator;
use crate::text::shown;
use crate::{headed_columns, header, requests, unit_lines};

/// Among so many lines with content the header is looked for.
pub const LOOKED_AT: usize = 30;

/// So many lines are read ahead at most, blank ones with them.
const READ_AHEAD: usize = 10_000;

/// A line above the header that is separated otherwise has so many numbers if it is a member's: a title may list some axes.
const NUMBERS_IF_SEPARATED_OTHERWISE: usize = 7;

/// How much of a line is quoted.
const QUOTED: usize = 60;

/// A line that was read ahead, and the lines from it and after it.
#[derive(Clone, Copy)]
struct Ahead<'a> {
    line: Line<'a>,
    from: Lines<'a>,
    after: Lines<'a>,
}

impl Ahead<'_> {
    fn is_blank(&self) -> bool {
        fields::is_blank(self.line.text)
    }
}

#[derive(Debug)]
pub struct Opening<'a> {
    pub columns: Columns,
    /// What stands above the header, or above the first row where there is none.
    pub above: Vec<Line<'a>>,
    pub header: Option<Line<'a>>,
    pub rows: Lines<'a>,
    /// What a person should know about how the sheet is read.
    pub notes: Vec<String>,
}

impl<'a> Opening<'a> {
    /// What the first lines of a text say; nothing where all are blank, an error where the columns cannot be told.
    pub fn of(text: &'a [u8], options: &ColumnOptions) -> Result<Option<Opening<'a>>, String> {
        let lines = read_ahead(Lines::of(text), &SEPARATORS, options.schema);
        let Some(first) = lines.iter().position(|ahead| !ahead.is_blank()) else {
            return match lines.len() {
                READ_AHEAD => Err(format!("the first {READ_AHEAD} lines are blank")),
                _ => Ok(None),
            };
        };
        let hint = hint_in(&lines[first].line)?;
        let Some(separator) = hint else {
            return below(&[], &lines, &SEPARATORS, options).map(Some);
        };
        let rest = read_ahead(lines[first].after, &[separator], options.schema);
        let mut opening = below(&lines[..=first], &rest, &[separator], options)?;
        let quoted = quoted(&lines[first].line);
        let note = format!("{quoted} sets the separator and is passed over");
        opening.notes.insert(0, note);
        Ok(Some(opening))
    }
}

/// Lines from here on, with enough content among them to find a header.
fn read_ahead<'a>(mut lines: Lines<'a>, separators: &[u8], schema: &Schema) -> Vec<Ahead<'a>> {
    let mut read = Vec::new();
    let mut filled = 0;
    while filled < LOOKED_AT && read.len() < READ_AHEAD {
        let from = lines;
        let Some(line) = lines.next_line(Shape::Separated(separators, schema)) else {
            break;
        };
        let ahead = Ahead {
            line,
            from,
            after: lines,
        };
        filled += usize::from(!ahead.is_blank());
        read.push(ahead);
    }
    read
}

fn hint_in(line: &Line) -> Result<Option<u8>, String> {
    separator::hint(line.text)
        .transpose()
        .map_err(|problem| format!("line {}: {problem}", line.number))
}

/// The lines below a hint, or all where there is none, separated by one of these.
fn below<'a>(
    hint: &[Ahead<'a>],
    lines: &[Ahead<'a>],
    separators: &[u8],
    options: &ColumnOptions,
) -> Result<Opening<'a>, String> {
    let mut opening = match header_among(lines, separators, options.schema) {
        Some((at, separator)) => below_header(lines, at, separator, options)?,
        None => without_header(lines, separators, options)?,
    };
    let hint = hint.iter().map(|ahead| ahead.line);
    opening.above.splice(..0, hint);
    Ok(opening)
}

/// The place and separator of the line with the most known headings, the first of them where there are several.
fn header_among(lines: &[Ahead], separators: &[u8], schema: &Schema) -> Option<(usize, u8)> {
    let headers = lines.iter().enumerate().filter_map(|(at, ahead)| {
        let header = header::found_in(ahead.line.text, separators, schema)?;
        Some((at, header))
    });
    let (at, header) = headers.rev().max_by_key(|(_, header)| header.known)?;
    Some((at, header.separator))
}

fn below_header<'a>(
    lines: &[Ahead<'a>],
    at: usize,
    separator: u8,
    options: &ColumnOptions,
) -> Result<Opening<'a>, String> {
    let Ahead {
        line: header,
        after: rows,
        ..
    } = lines[at];
    let columns = match options.by_position {
        true => Columns::in_order_below(header.text, options.schema, separator, Basis::Asked),
        false => headed_columns::columns(header.text, separator, options)
            .map_err(|problem| format!("line {}, the header: {problem}", header.number))?,
    };
    let columns = requests::settled(columns, rows);
    let titles = lines[..at].iter().filter(|ahead| !ahead.is_blank());
    let mut notes = titles
        .map(|title| pass_over(&title.line, &header, &columns))
        .collect::<Result<Vec<_>, _>>()?;
    notes.extend(match options.by_position {
        true => Vec::from_iter(headed_columns::contradiction(header.text, &columns)),
        false => headed_columns::notes(header.text, &columns),
    });
    Ok(Opening {
        columns,
        above: lines[..at].iter().map(|ahead| ahead.line).collect(),
        header: Some(header),
        rows,
        notes,
    })
}

/// The note about a title line; an error for one that looks like a member, or says that the columns are in other units.
fn pass_over(line: &Line, header: &Line, columns: &Columns) -> Result<String, String> {
    let quoted = quoted(line);
    let number = header.number;
    if may_be_a_member(line, columns) {
        return Err(format!(
            "{quoted} looks like a member, but stands above the header in line {number}"
        ));
    }
    if columns.basis == Basis::Headings {
        unit_lines::above_header(line, header, columns).map_or(Ok(()), Err)?;
    }
    Ok(format!(
        "{quoted} stands above the header in line {number} and is passed over"
    ))
}

fn may_be_a_member(line: &Line, columns: &Columns) -> bool {
    columns.numbers_from(0, line.text) >= NUMBERS_OF_A_MEMBER
        || SEPARATORS.iter().any(|separator| {
            let fields = Fields::of(line.text, *separator);
            let numbers = fields.filter(|field| is_number(field, *separator));
            numbers.take(NUMBERS_IF_SEPARATED_OTHERWISE).count() == NUMBERS_IF_SEPARATED_OTHERWISE
        })
}

fn without_header<'a>(
    lines: &[Ahead<'a>],
    separators: &[u8],
    options: &ColumnOptions,
) -> Result<Opening<'a>, String> {
    let blank = lines.iter().take_while(|ahead| ahead.is_blank()).count();
    let (above, rows) = lines.split_at(blank);
    if !options.by_position {
        refuse_spoilt_header(rows, separators, options.schema)?;
        refuse_header_of_another(rows, separators)?;
        refuse_unknown_header(rows, separators, options.schema)?;
    }
    if let Some(heading) = options.skip.first() {
        return Err(format!(
            "--skip \"{}\": there is no header, so no column is headed so",
            shown(heading, QUOTED)
        ));
    }
    let first = rows.first();
    let text = first.map_or(&b""[..], |ahead| ahead.line.text);
    let separator = match separators {
        [separator] => *separator,
        _ => separator::most_frequent(text),
    };
    let (basis, note) = match options.by_position {
        true => (Basis::Asked, None),
        false => (Basis::NoHeader, first.map(|ahead| no_header(&ahead.line))),
    };
    let rows = first.map_or(Lines::of(b""), |ahead| ahead.from);
    let columns = Columns::in_order_from(text, options.schema, separator, basis);
    Ok(Opening {
        columns: requests::settled(columns, rows),
        above: above.iter().map(|ahead| ahead.line).collect(),
        header: None,
        rows,
        notes: note.into_iter().collect(),
    })
}

/// A header with a number or a stray quote in it is no header, but its order may well be another than that of the cells.
fn refuse_spoilt_header(rows: &[Ahead], separators: &[u8], schema: &Schema) -> Result<(), String> {
    let spoilt = |ahead: &&Ahead| header::is_spoilt(ahead.line.text, separators, schema);
    match rows.iter().find(spoilt) {
        Some(ahead) => Err(format!(
            "{} looks like a header, but has a number or a quote that is not closed",
            quoted(&ahead.line)
        )),
        None => Ok(()),
    }
}

/// A header of floor beams among members, or the other way round: what stands below it is no row.
fn refuse_header_of_another(rows: &[Ahead], separators: &[u8]) -> Result<(), String> {
    let headed = rows.iter().find_map(|ahead| {
        let is_header = |schema: &&Schema| header::is_clear(ahead.line.text, separators, schema);
        let schema = schema::all().into_iter().find(is_header)?;
        Some((ahead, schema))
    });
    match headed {
        Some((ahead, schema)) => Err(format!(
            "{} is the header of another sheet: {}",
            quoted(&ahead.line),
            schema.asked_for
        )),
        None => Ok(()),
    }
}

/// A first line of words alone is a header of which too little is known to tell the columns; what stands in it may be in any order.
fn refuse_unknown_header(rows: &[Ahead], separators: &[u8], schema: &Schema) -> Result<(), String> {
    let seems_header =
        |ahead: &&Ahead| header::has_words_alone(ahead.line.text, separators, schema);
    match rows.first().filter(seems_header) {
        Some(ahead) => Err(format!(
            "{} seems to be a header, but its headings are not known; --help lists those that are, and --by-position takes the columns in their order",
            quoted(&ahead.line)
        )),
        None => Ok(()),
    }
}

fn no_header(first: &Line) -> String {
    format!(
        "there is no header: line {} is the first row, and cells are taken in the order of --help",
        first.number
    )
}

fn quoted(line: &Line) -> String {
    let text = shown(&String::from_utf8_lossy(line.text), QUOTED);
    format!("line {}, \"{text}\",", line.number)
}
