//! The table of verdicts: section, verdict, utilisation, the check that governs.
use crate::cell_numbers::{HEIGHT, WIDTH};
use crate::judgement::{governing, Check, Governing, Judgement};
use crate::row::{Outcome, SheetRow};
use crate::table::{whole_number, Layout, TableColumn, NONE};
use crate::table_lines::Side;
use crate::{reasons, words};

pub fn layout(
    columns: Vec<TableColumn<Judgement>>,
    remarks: Vec<&'static str>,
) -> Layout<Judgement> {
    Layout {
        find: |row| row.judged(),
        outcome: Outcome::of_judged,
        columns,
        last_heading: "Governing check, clause of SP 64",
        last: check,
        doubt: |_, _| None,
        remarks,
    }
}

/// The check that governs a row; a row without a verdict has the reason in its place.
pub fn check(row: &SheetRow, found: &Judgement) -> String {
    match governing(&Ok(*found)) {
        Ok(governing) => match governing.check {
            Check::Numbered(number) => words::check(number, row.kind()).to_owned(),
            Check::Sag => words::SAG_CHECK.to_owned(),
        },
        Err(refused) => reasons::reason(refused, row),
    }
}

pub const SIZES: TableColumn<Judgement> = TableColumn {
    heading: "b × h, mm",
    width: 11,
    side: Side::Left,
    text: |row, _| {
        let [width, height] = [WIDTH, HEIGHT].map(|number| whole_number(row.numbered(number), 4));
        format!("{width:>4} × {height:<4}")
    },
};

pub const VERDICT: TableColumn<Judgement> = TableColumn {
    heading: "Verdict",
    width: 7,
    side: Side::Left,
    text: |_, judged| {
        match governing(judged) {
            Ok(governing) => pass_or_fail(governing.passes),
            Err(_) => REFUSED,
        }
        .to_owned()
    },
};

pub const UTILISATION: TableColumn<Judgement> = TableColumn {
    heading: "Util. %",
    width: 7,
    side: Side::Right,
    text: |_, judged| governing(judged).map_or(NONE.to_owned(), |governing| figure(&governing)),
};

/// Stands where there is no verdict.
pub const REFUSED: &str = "refused";

/// A verdict that a person finds at once.
pub fn pass_or_fail(passes: bool) -> &'static str {
    if passes {
        "pass"
    } else {
        "FAIL"
    }
}

/// Checks 1 to 4 are yes or no: where one fails there is no figure.
fn figure(governing: &Governing) -> String {
    match governing.check {
        Check::Numbered(1..=4) => NONE.to_owned(),
        _ => percent(governing.utilisation),
    }
}

/// In percent with one decimal, rounded up, so that a fail is above 100.0 and a pass is not.
pub fn percent(utilisation: u32) -> String {
    let tenths = utilisation.div_ceil(1000);
    if tenths >= 10_000 {
        return "> 999.9".to_owned();
    }
    format!("{}.{}", tenths / 10, tenths % 10)
}
