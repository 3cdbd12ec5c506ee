//! One for each end of a range, each code, and each cell that a kind fills or leaves blank.
use super::{keep_the_requests, kind_code, moved, slip, SLIP};
use crate::evidence::{EveryRule, Shows, Wrong};
use lvl_addin::answer::Refusal;
use lvl_addin::row::CELLS;
use lvl_second::cells::{Cells, Grade, Kind, HEIGHT, MOISTURE, OFFICE_FACTOR, WIDTH};
use lvl_second::rows::judged::REGIMES;
use lvl_second::{Paper, Rules};
use std::ops::RangeInclusive;

/// One end of the range of one cell.
struct RangeEnd;
impl Rules for RangeEnd {
    fn range(number: usize) -> Option<RangeInclusive<u64>> {
        let right = Paper::range(number)?;
        Some(moved(*right.start(), number as u64, 0)..=moved(*right.end(), number as u64, 1))
    }
}

/// One code of a kind, grade or regime that is not known.
struct KindUnknown;
impl Rules for KindUnknown {
    fn kind(code: u64) -> Option<Kind> {
        Paper::kind(code).filter(|_| code != SLIP.get().0)
    }
}

struct GradeUnknown;
impl Rules for GradeUnknown {
    fn grade(code: u64) -> Option<Grade> {
        Paper::grade(code).filter(|_| code != SLIP.get().0)
    }
}

struct RegimeUnknown;
impl Rules for RegimeUnknown {
    fn duration_factor(code: u64) -> Option<u64> {
        Paper::duration_factor(code).filter(|_| code != SLIP.get().0)
    }
}

/// One code of a kind, grade or regime that is known and must not be.
struct KindKnown;
impl Rules for KindKnown {
    fn kind(code: u64) -> Option<Kind> {
        Paper::kind(if code == SLIP.get().0 { 1 } else { code })
    }
}

struct GradeKnown;
impl Rules for GradeKnown {
    fn grade(code: u64) -> Option<Grade> {
        Paper::grade(if code == SLIP.get().0 { 3 } else { code })
    }
}

struct RegimeKnown;
impl Rules for RegimeKnown {
    fn duration_factor(code: u64) -> Option<u64> {
        Paper::duration_factor(if code == SLIP.get().0 { 5 } else { code })
    }
}

/// One row of Table 16 that is known for a kind and must not be, or the reverse.
struct Table16Row;
impl Rules for Table16Row {
    fn knows_table_16_row(kind: Kind, row: u64) -> bool {
        let (at, wrong_row, _) = SLIP.get();
        Paper::knows_table_16_row(kind, row) != ((at, wrong_row) == (kind_code(kind), row))
    }
}

/// One cell that a kind asks for and must not, or the reverse.
struct FillTurned;
impl Rules for FillTurned {
    fn must_be_filled(kind: Kind, number: usize, joint_begun: bool) -> bool {
        let (at, cell, _) = SLIP.get();
        Paper::must_be_filled(kind, number, joint_begun)
            != ((at, cell) == (kind_code(kind), number as u64))
    }
}

/// One cell of a kind that may be filled or blank.
struct FillUnminded;
impl Rules for FillUnminded {
    fn refuse_misfilled(kind: Kind, cells: &Cells) -> Result<(), Refusal> {
        let (at, unminded, _) = SLIP.get();
        let mut cells = *cells;
        if at == kind_code(kind) {
            let number = unminded as usize;
            let right = Paper::must_be_filled(kind, number, Paper::joint_begun(kind, &cells));
            cells[number - 1] = right.then_some(1);
        }
        Paper::refuse_misfilled(kind, &cells)
    }
}

keep_the_requests!(
    RangeEnd,
    KindUnknown,
    GradeUnknown,
    RegimeUnknown,
    KindKnown,
    GradeKnown,
    RegimeKnown,
    Table16Row,
    FillTurned,
    FillUnminded,
);

/// Of the cells that a floor beam has: the ends of their ranges, and the grades.
pub fn of_beams<E: Shows>() -> Vec<Wrong> {
    let mut copies = range_ends::<E>([MOISTURE, OFFICE_FACTOR, WIDTH, HEIGHT]);
    copies.extend(grades::<E>());
    copies
}

pub fn copies_shown_by<E: Shows>() -> Vec<Wrong> {
    let mut copies = range_ends::<E>(1..=CELLS);
    copies.extend(kinds::<E>());
    copies.extend(grades::<E>());
    copies.extend(regimes::<E>());
    copies.extend(table_16_rows::<E>());
    copies.extend(fills::<E>());
    copies
}

fn range_ends<E: Shows>(numbers: impl IntoIterator<Item = usize>) -> Vec<Wrong> {
    numbers.into_iter().flat_map(ends_of::<E>).collect()
}

/// Both ends of the range of a cell, if it has one, each moved either way.
fn ends_of<E: Shows>(number: usize) -> Vec<Wrong> {
    let mut copies = Vec::new();
    let Some(range) = Paper::range(number) else {
        return copies;
    };
    for by in [-1, 1] {
        let end = |name: &str, and| {
            let name = format!("{name} of cell {number} moved by {by}");
            slip::<E, RangeEnd>(name, number as u64, and, by)
        };
        if *range.start() > 0 || by > 0 {
            copies.push(end("least", 0));
        }
        copies.push(end("greatest", 1));
    }
    copies
}

/// Codes of one cell that a copy does not know, or knows and must not.
fn codes<E: Shows, R: EveryRule>(
    what: &str,
    how: &str,
    codes: impl IntoIterator<Item = u64>,
) -> Vec<Wrong> {
    let copy = |code| slip::<E, R>(format!("{what} {code} {how}"), code, 0, 0);
    codes.into_iter().map(copy).collect()
}

fn kinds<E: Shows>() -> Vec<Wrong> {
    let mut copies = codes::<E, KindUnknown>("kind", "unknown", 1..=5);
    copies.extend(codes::<E, KindKnown>("kind", "known", [0, 6]));
    copies
}

fn grades<E: Shows>() -> Vec<Wrong> {
    let mut copies = codes::<E, GradeUnknown>("grade", "unknown", 1..=3);
    copies.extend(codes::<E, GradeKnown>("grade", "known", [0, 4]));
    copies
}

fn regimes<E: Shows>() -> Vec<Wrong> {
    let mut copies = codes::<E, RegimeUnknown>("regime", "unknown", REGIMES);
    // Code 9 is the regime of fire.
    copies.extend(codes::<E, RegimeKnown>("regime", "known", [0, 9, 12]));
    copies
}

fn table_16_rows<E: Shows>() -> Vec<Wrong> {
    let copy = |kind, row| {
        let name = format!("row {row} of Table 16 turned for kind {kind}");
        slip::<E, Table16Row>(name, kind, row, 0)
    };
    [1, 3, 4, 5]
        .into_iter()
        .flat_map(|kind| (0..=6).map(move |row| copy(kind, row)))
        .collect()
}

fn fills<E: Shows>() -> Vec<Wrong> {
    let copies = |kind, cell| {
        let name = |how| format!("fill of cell {cell} {how} in kind {kind}");
        [
            slip::<E, FillTurned>(name("turned"), kind, cell, 0),
            slip::<E, FillUnminded>(name("not minded"), kind, cell, 0),
        ]
    };
    (1..=5)
        .flat_map(|kind| (2..=CELLS as u64).flat_map(move |cell| copies(kind, cell)))
        .collect()
}
