//! Which columns a header heads, or what is wrong with its headings.
use crate::columns::{Basis, Column, ColumnOptions, Columns};
use crate::header::{self, texts};
use crate::heading_list;
use crate::headings::{self, Heading, Meaning};
use crate::schema::{Cell, Schema};
use crate::text::shown;

/// How much of a heading is quoted.
const QUOTED: usize = 40;

/// So many problems are listed, and the others counted.
const MOST_PROBLEMS: usize = 30;

const NOT_KNOWN: &str = "not a known heading";

/// The columns below a header; an error that lists everything wrong with its headings.
pub fn columns(header: &[u8], separator: u8, options: &ColumnOptions) -> Result<Columns, String> {
    let ColumnOptions { schema, skip, .. } = options;
    let texts = texts(header, separator);
    let skipped = passed_over(skip, &texts, schema);
    let columns: Vec<Result<Column, String>> = texts
        .iter()
        .map(|text| column(text, &skipped, schema))
        .collect();
    let of_columns =
        (0..columns.len()).filter_map(|place| problem(place, &columns, &texts, schema));
    let of_skip = skip
        .iter()
        .filter_map(|heading| problem_of_skip(heading, &texts, &skipped));
    let problems: Vec<String> = of_columns.chain(of_skip).collect();
    if !problems.is_empty() {
        let advice = advice(header, separator, schema);
        return Err(message(&problems, &advice));
    }
    let columns = columns.into_iter().flatten().collect();
    Ok(Columns::new(schema, separator, Basis::Headings, columns))
}

/// The keys of the headings that are passed over. Of the answers those on request may be, as an office's own columns, where the
/// sheet has no others of them.
fn passed_over(skip: &[String], texts: &[String], schema: &Schema) -> Vec<String> {
    let keys: Vec<String> = skip.iter().map(|heading| headings::key(heading)).collect();
    let answer = |text: &str| match headings::read_in(schema, text) {
        Meaning::Known(Heading::Answer(number)) => Some(number),
        _ => None,
    };
    let is_on_request = |number: usize| number >= schema.answers_without_request();
    let is_other = |text: &String| {
        answer(text).is_some_and(is_on_request) && !keys.contains(&headings::key(text))
    };
    let has_others = texts.iter().any(is_other);
    let may_be =
        |heading: &str| answer(heading).map_or(true, |number| is_on_request(number) && !has_others);
    let headings = skip.iter().zip(&keys);
    let passed_over = headings.filter(|(heading, _)| may_be(heading));
    passed_over.map(|(_, key)| key.clone()).collect()
}

fn column(text: &str, skipped: &[String], schema: &Schema) -> Result<Column, String> {
    match headings::read_in(schema, text) {
        Meaning::Empty => Ok(Column::Unheaded),
        _ if skipped.contains(&headings::key(text)) => Ok(Column::Skipped),
        Meaning::Known(heading) => Ok(Column::Holds(heading)),
        Meaning::OtherUnit(cell) => Err(schema.cell(cell).unit_wanted()),
        Meaning::Unknown => Err(not_known(text, schema)),
    }
}

/// For a heading that is not known; spreadsheets make a capital letter of the n of a limit.
fn not_known(text: &str, schema: &Schema) -> String {
    let is_ratio = match headings::read_in(schema, &text.to_lowercase()) {
        Meaning::Known(Heading::Cell(place)) => schema.cell(place).names.is_ratio,
        _ => false,
    };
    match is_ratio {
        true => format!("{NOT_KNOWN}: n of the limit is typed small, or as \"L/n\" or \"span/n\""),
        false => NOT_KNOWN.to_owned(),
    }
}

/// What is wrong with the heading at this place, alone or beside the others.
fn problem(
    place: usize,
    columns: &[Result<Column, String>],
    texts: &[String],
    schema: &Schema,
) -> Option<String> {
    let problem = match &columns[place] {
        Err(problem) => problem.clone(),
        Ok(Column::Holds(Heading::Answer(number))) if !has_answers(*number, columns, schema) => {
            // New answers would be written over what an office may call its count or check.
            "the heading of an answer, without those of the others: rename the column".to_owned()
        }
        Ok(Column::Holds(heading)) => {
            let same = |column: &Result<Column, String>| *column == Ok(Column::Holds(*heading));
            let earlier = columns[..place].iter().position(same)?;
            doubled(&named(*heading, schema), earlier, &texts[earlier])
        }
        Ok(Column::Skipped | Column::Unheaded) => return None,
    };
    Some(in_column(place, &texts[place], &problem))
}

/// Whether all answers are headed that a run has written with this one: those of what is on request only where it has.
fn has_answers(number: usize, columns: &[Result<Column, String>], schema: &Schema) -> bool {
    let without_request = schema.answers_without_request();
    let written = match number < without_request {
        true => without_request,
        false => schema.answers.len(),
    };
    let mut answers = (0..written).map(Heading::Answer);
    answers.all(|answer| columns.contains(&Ok(Column::Holds(answer))))
}

fn problem_of_skip(heading: &str, texts: &[String], skipped: &[String]) -> Option<String> {
    let key = headings::key(heading);
    let problem = if !skipped.contains(&key) {
        "an answer cannot be passed over: rename the column"
    } else if !texts.iter().any(|text| headings::key(text) == key) {
        "no column is headed so"
    } else {
        return None;
    };
    Some(format!("--skip \"{}\": {problem}", shown(heading, QUOTED)))
}

fn in_column(place: usize, text: &str, problem: &str) -> String {
    format!(
        "column {}, \"{}\": {problem}",
        place + 1,
        shown(text, QUOTED)
    )
}

fn named(heading: Heading, schema: &Schema) -> String {
    match heading {
        Heading::Cell(cell) => schema.cell(cell).words.name.to_owned(),
        Heading::Member => format!("the {}'s name", schema.one),
        Heading::Answer(_) => "the answer".to_owned(),
    }
}

fn doubled(what: &str, earlier: usize, text: &str) -> String {
    let quoted = shown(text, QUOTED);
    format!(
        "{what} is headed twice, by column {}, \"{quoted}\", too",
        earlier + 1
    )
}

fn message(problems: &[String], advice: &str) -> String {
    let further = match problems.len().checked_sub(MOST_PROBLEMS) {
        Some(more) if more > 0 => format!("\n  and {more} more"),
        _ => String::new(),
    };
    let first = &problems[..problems.len().min(MOST_PROBLEMS)];
    format!(
        "its headings are not clear\n  {}{further}\n{advice}",
        first.join("\n  ")
    )
}

/// What may help: the headings that are known, or another sheet's name where they are rather known there.
fn advice(header: &[u8], separator: u8, schema: &Schema) -> String {
    match header::rather_of(header, separator, schema) {
        Some(other) => format!(
            "These are rather the headings of another sheet: {}",
            other.asked_for
        ),
        None => format!(
            "A column of your own is passed over with --skip HEADING. Known headings:\n{}",
            heading_list::all(schema).trim_end()
        ),
    }
}

/// What a person should know of headings that are known, but may have been meant otherwise: n, m and q for N, M and Q.
pub fn notes(header: &[u8], columns: &Columns) -> Vec<String> {
    let texts = texts(header, columns.separator);
    let taken = columns.iter().zip(&texts).enumerate();
    taken
        .filter_map(|(place, (column, text))| match column {
            Column::Holds(Heading::Cell(cell)) => {
                let cell = columns.schema.cell(cell);
                let problem = format!("taken for {}", cell.words.name);
                is_small_letter(text, cell).then(|| in_column(place, text, &problem))
            }
            _ => None,
        })
        .collect()
}

/// Whether a heading is the small letter of a cell whose symbol is the capital one.
fn is_small_letter(text: &str, cell: &Cell) -> bool {
    let symbol = cell.names.symbol;
    let text = text.trim();
    text.chars().count() == 1
        && text != text.to_uppercase()
        && !symbol.is_empty()
        && symbol.chars().all(char::is_uppercase)
}

/// What a person should know of headings that name other cells than their columns hold: the first of them.
pub fn contradiction(header: &[u8], columns: &Columns) -> Option<String> {
    let texts = texts(header, columns.separator);
    let mut taken = columns.iter().zip(&texts).enumerate();
    taken.find_map(|(place, (column, text))| {
        let Column::Holds(Heading::Cell(cell)) = column else {
            return None;
        };
        let is_contradicted = match headings::read_in(columns.schema, text) {
            Meaning::Known(heading) => heading != Heading::Cell(cell),
            Meaning::OtherUnit(_) => true,
            Meaning::Empty | Meaning::Unknown => false,
        };
        let name = columns.schema.cell(cell).words.name;
        let problem = format!("taken for {name}, as the order has it");
        is_contradicted.then(|| in_column(place, text, &problem))
    })
}
