//! A sheet of members or floor beams, judged, packed or with its strengths, row by row. All judgement is the add-in's; what
//! stands here reads and writes.

pub mod answer_columns;
pub mod answers;
pub mod cell_numbers;
pub mod columns;
pub mod encoding;
pub mod fields;
pub mod floor_answers;
pub mod floor_beams;
pub mod floor_row;
pub mod floor_table;
pub mod formulas;
pub mod headed_columns;
pub mod header;
pub mod heading_list;
pub mod heading_names;
pub mod headings;
pub mod input;
pub mod judgement;
pub mod lines;
pub mod load_reasons;
pub mod members;
pub mod moment_doubts;
pub mod notes;
pub mod number;
pub mod opening;
pub mod options;
pub mod output;
pub mod packed_rows;
pub mod progress;
pub mod reasons;
pub mod requests;
pub mod row;
pub mod sag_answers;
pub mod sag_table;
pub mod schema;
pub mod separator;
pub mod strength_table;
pub mod table;
pub mod table_lines;
pub mod tally;
pub mod text;
pub mod unit_lines;
pub mod units;
pub mod used_strengths;
pub mod verdict_table;
pub mod windows_1251;
pub mod words;

use columns::{Basis, ColumnOptions, Columns};
use header::Below;
use lines::{Line, Shape};
use opening::Opening;
use progress::Progress;
use row::{Outcome, SheetRow};
use tally::Tally;

/// What is made of a sheet, row by row.
pub trait Report: Sized {
    /// Once, before the rows.
    fn begin(&mut self, _: &Opening) {}
    /// For a line without content.
    fn blank(&mut self, _: &[u8], _: &Columns) {}
    /// For each row.
    fn row(&mut self, row: &SheetRow) -> Outcome;
    /// What a person should know of the rows beside the answers.
    fn notes(&self) -> Vec<String> {
        Vec::new()
    }
    /// All that was made.
    fn finish(self) -> Vec<u8>;
}

/// Makes a report of every row of a sheet's text; an error where it is not clear which column holds what.
pub fn go_through(
    text: &[u8],
    options: &ColumnOptions,
    mut report: impl Report,
    progress: &mut Progress,
) -> Result<(Tally, Vec<u8>), String> {
    let mut tally = Tally::default();
    if let Some(opening) = Opening::of(text, options)? {
        notes::show(&opening.notes);
        report.begin(&opening);
        let columns = &opening.columns;
        let mut lines = opening.rows;
        let mut last = None;
        while let Some(line) = lines.next_line(Shape::In(columns)) {
            if fields::is_blank(line.text) {
                report.blank(line.text, columns);
                continue;
            }
            tally.count(report.row(&clear_row(&line, columns)?));
            progress.rows(tally.rows);
            last = Some(line);
        }
        progress.clear();
        notes::show(&report.notes());
        notes::show(
            last.and_then(|line| cut_off(&line, text, columns))
                .as_slice(),
        );
    }
    Ok((tally, report.finish()))
}

/// The row that a line holds, unless it is not clear that it is one.
fn clear_row<'a>(line: &Line<'a>, columns: &'a Columns) -> Result<SheetRow<'a>, String> {
    if let Some(closed_in) = line.closed_in {
        return Err(format!(
            "line {}: a quote is open that line {closed_in} may close, and members would be lost: put the quotes right",
            line.number
        ));
    }
    let row = SheetRow::read(line, columns);
    // Where the order of the cells was asked for, every line is a row.
    if columns.basis == Basis::Asked || !row.may_be_no_row() {
        return Ok(row);
    }
    match header::below(line.text, columns) {
        Below::Another => Err(header::another(line.number)),
        Below::Repeated => Ok(row),
        Below::Row => unit_lines::below_header(line, columns).map_or(Ok(row), Err),
    }
}

/// What a person should know of a last line that is shorter than the header and has no end.
fn cut_off(line: &Line, text: &[u8], columns: &Columns) -> Option<String> {
    let is_ended = text.ends_with(b"\n") || text.ends_with(b"\r");
    let is_headed = columns.basis == Basis::Headings;
    let (fields, _) = columns.split(line.text);
    (is_headed && !is_ended && fields.len() < columns.width()).then(|| {
        format!(
            "line {}, the last, has no line end and stops in column {} of {}: if the file was cut off, so was its last number",
            line.number,
            fields.len(),
            columns.width()
        )
    })
}
