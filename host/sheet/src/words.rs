//! What a reader sees in place of numbers: kinds, cells, grades, regimes, checks and their clauses. Nothing is judged by it.

use lvl_addin::row;
use std::ops::RangeInclusive;

/// The cells of a joint: side piece a to km.
pub const JOINT: RangeInclusive<usize> = 14..=22;

/// A cell of the row as a drafter knows it.
pub struct CellWords {
    pub name: &'static str,
    pub unit: &'static str,
    /// What may stand there, for people: the add-in alone decides.
    pub range: &'static str,
}

const fn cell(name: &'static str, unit: &'static str, range: &'static str) -> CellWords {
    CellWords { name, unit, range }
}

const CELLS: [CellWords; row::CELLS] = [
    cell("kind", "", "1 to 5"),
    cell("grade", "", "1 to 3"),
    cell("regime", "", "1 to 11 without 9"),
    cell("moisture", "%", "0 to 60"),
    cell("office factor", "thousandths", "500 to 1000"),
    cell("width b", "mm", "20 to 300"),
    cell("height h", "mm", "60 to 2500"),
    cell("axial force N", "N", "1 to 100000000"),
    cell("moment M", "N·mm", "1 to 10000000000"),
    cell("shear force Q", "N", "0 to 100000000"),
    cell("effective length Lh", "mm", "100 to 20000"),
    cell("effective length Lb", "mm", "100 to 20000"),
    cell(
        "Table 16 row",
        "",
        "1 to 3 in compression, 4 or 5 in tension",
    ),
    cell("side piece a", "mm", "10 to 300"),
    cell("dowel diameter d", "mm", "6 to 40"),
    cell("dowels across r", "", "1 to 20"),
    cell("joint length", "mm", "1 to 20000"),
    cell("kc", "hundredths of N/mm²", "100 to 5000"),
    cell("ka", "hundredths of N/mm²", "100 to 5000"),
    cell("kb", "hundredths of N/mm²", "100 to 5000"),
    cell("ke", "hundredths of N/mm²", "0 to 5000"),
    cell("km", "hundredths of N/mm²", "100 to 5000"),
];

/// What a floor beam has in place of a row's forces: both loads and the span.
pub const FLOOR: [CellWords; 3] = [
    cell("permanent and long-term load", "N/m", "from 0"),
    cell("remaining load", "N/m", "from 0"),
    cell("span", "mm", "500 to 20000"),
];

/// What a floor beam has for its sag: the moment and n of the limit span / n.
pub const SAG: [CellWords; 2] = [
    cell("unfactored moment Mn", "N·mm", "1 to 10000000000"),
    cell("limit n", "", "100 to 500"),
];

/// Both loads of a floor beam together.
pub const TOTAL_LOAD: CellWords = cell("total load q", "N/m", "100 to 100000");

/// The words for a row's cell by its number, from 1.
pub fn cell_words(number: usize) -> Option<&'static CellWords> {
    cells().nth(number.checked_sub(1)?)
}

/// The words for all cells of a row, cell 1 first.
pub fn cells() -> impl Iterator<Item = &'static CellWords> {
    CELLS.iter()
}

pub fn grade(code: u64) -> Option<&'static str> {
    match code {
        1 => Some("K45"),
        2 => Some("K40"),
        3 => Some("K35"),
        _ => None,
    }
}

/// The letter of a load duration regime, Table 4.
pub fn regime(code: u64) -> Option<&'static str> {
    const LETTERS: [&str; 11] = ["А", "Б", "В", "Г", "Д", "Е", "Ж", "И", "К", "Л", "М"];
    let place = usize::try_from(code).ok()?.checked_sub(1)?;
    LETTERS.get(place).copied()
}

/// With its code: the letter Ve looks like a B, which is not the letter Be.
pub fn regime_with_code(code: u64) -> Option<String> {
    regime(code).map(|letter| format!("{letter} ({code})"))
}

pub fn kind(number: u64) -> Option<&'static str> {
    match number {
        1 => Some("tension"),
        2 => Some("bending"),
        3 => Some("compression"),
        4 => Some("compression + bending"),
        5 => Some("tension + bending"),
        _ => None,
    }
}

/// The check of a beam's sag and its clauses in SP 64.13330.
pub const SAG_CHECK: &str = "sag, 7.34 and 7.35";

/// A check and its clause in SP 64.13330, for a row of this kind.
pub fn check(number: u32, kind: Option<u64>) -> &'static str {
    match (number, kind) {
        (1, _) => "dowel layout, 8.20",
        (2, _) => "slenderness across h, 7.4 and Table 16",
        (3, _) => "slenderness across b, 7.4 and Table 16",
        (4, _) => "joint length, 8.20",
        (5, _) => "net tension, 7.1",
        (6, _) => "tension of side pieces, 7.1",
        (7, _) => "bending, 7.9",
        (8, Some(4)) => "shear, 7.18",
        (8, _) => "shear, 7.10",
        (9, _) => "buckling across h, 7.2",
        (10, _) => "buckling across b, 7.2",
        (11, Some(4)) => "compression with bending, 7.17",
        (11, _) => "tension with bending, 7.16",
        _ => "unknown check",
    }
}
