//! Why a row is refused, in words: the refusal's number, its cell, and what was typed there.
use crate::columns::Basis;
use crate::judgement::Refused;
use crate::number::Typed;
use crate::row::SheetRow;
use crate::text::shown;
use crate::words::{self, CellWords};
use lvl_addin::answer::Refusal;

/// The greatest number that a cell can hold.
const GREATEST: f64 = 17_179_869_183.0;

/// How much of a cell's text is quoted.
const QUOTED: usize = 24;

pub fn reason(refused: Refused, row: &SheetRow) -> String {
    match refused {
        Refused::ByAddin(refusal) => of_addin(refusal, row),
        Refused::OpenQuote => open_quote(row),
        Refused::ExtraColumn => extra_column(row),
    }
}

/// For a row with a quote that is not closed.
fn open_quote(row: &SheetRow) -> String {
    let Some((column, field)) = row.open_quote() else {
        return "no quote is open".to_owned();
    };
    let text = shown(&String::from_utf8_lossy(&field), QUOTED);
    format!("column {column}: the quote that begins {text} is not closed")
}

/// "cell 9 moment M: blank, but kind 2 needs it".
fn of_addin(refusal: Refusal, row: &SheetRow) -> String {
    let number = refusal.cell as usize;
    let schema = row.columns.schema;
    let Some((place, cell)) = schema.numbered(number) else {
        return (schema.whole_row_reason)(refusal, row);
    };
    let typed = row.cell(place);
    let text = shown_cell(row, place);
    let reason = match refusal.number {
        1 => unreadable(typed, &text),
        2 => misfilled(number, typed, row.kind()),
        3 => unknown(number, &text),
        4 => format!("{text} is outside {}", range(cell.words)),
        other => format!("refusal {other}"),
    };
    format!("cell {number} {}: {reason}", cell.words.name)
}

/// For a row with something in a column that holds nothing known.
fn extra_column(row: &SheetRow) -> String {
    let Some((column, field)) = row.extra_column() else {
        return "no column without a heading is filled".to_owned();
    };
    let text = shown(&String::from_utf8_lossy(&field), QUOTED);
    match row.columns.basis {
        Basis::Headings => format!("column {column}: \"{text}\" stands below no heading"),
        Basis::NoHeader | Basis::Asked => {
            let last = row.columns.last_cell().named();
            format!("column {column}: \"{text}\" stands past the last cell, {last}")
        }
    }
}

/// As much of a cell's text as is quoted.
pub fn shown_cell(row: &SheetRow, place: usize) -> String {
    shown(&row.text(place), QUOTED)
}

pub fn unreadable(typed: Typed, text: &str) -> String {
    match typed {
        Typed::Text => format!("\"{text}\" is not a number"),
        Typed::Unclear => format!("\"{text}\" can be read in two ways: leave the mark out"),
        Typed::Number(number) if number < 0.0 => format!("{text} is below zero"),
        Typed::Number(number) if number > GREATEST => format!("{text} is too great"),
        Typed::Number(_) => format!("{text} is not a whole number"),
        Typed::Blank => "cannot be read".to_owned(),
    }
}

fn misfilled(number: usize, typed: Typed, kind: Option<u64>) -> String {
    match (typed, kind) {
        (Typed::Blank, None) => "blank".to_owned(),
        (Typed::Blank, Some(_)) if words::JOINT.contains(&number) => {
            "blank, but a joint is begun".to_owned()
        }
        (Typed::Blank, Some(kind)) => format!("blank, but kind {kind} needs it"),
        (_, Some(kind)) => format!("filled, but not for kind {kind}"),
        (_, None) => "filled".to_owned(),
    }
}

fn unknown(number: usize, text: &str) -> String {
    match (number, text) {
        (3, "9") => "9 stands for К, which belongs to fire".to_owned(),
        (13, _) => format!("{text} is not a row for this kind"),
        _ => format!("{text} is not a known code"),
    }
}

/// What may stand in a cell.
pub fn range(words: &CellWords) -> String {
    match words.unit {
        "" => words.range.to_owned(),
        unit => format!("{} {unit}", words.range),
    }
}
