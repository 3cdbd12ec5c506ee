//! Which rows are judged, and how the others are refused.
use crate::cells::*;
use crate::rules::Rules;
use lvl_addin::answer::{Refusal, Verdict};
use lvl_addin::row::CELLS;
use std::ops::RangeInclusive;

/// A refusal that names a cell.
fn refusal(number: u32, cell: usize) -> Refusal {
    Refusal {
        number,
        cell: cell as u32,
    }
}

/// The kind of a row: its cell must be filled with a known code before anything else is looked at.
pub fn kind_of<R: Rules>(cells: &Cells) -> Result<Kind, Refusal> {
    let code = cell(cells, KIND).ok_or(refusal(2, KIND))?;
    R::kind(code).ok_or(refusal(3, KIND))
}

/// Whether a row describes a joint, or begins to: only a tie may have one.
pub fn joint_begun(kind: Kind, cells: &Cells) -> bool {
    let filled = |number| cell(cells, number).is_some();
    kind == Kind::Tension && (FIRST_OF_JOINT..=LAST_OF_JOINT).any(filled)
}

/// Whether a cell must be filled; any other must be blank.
pub fn must_be_filled(kind: Kind, number: usize, joint_begun: bool) -> bool {
    match number {
        KIND..=HEIGHT => true,
        AXIAL | LENGTH_H..=TABLE_16_ROW => kind != Kind::Bending,
        MOMENT | SHEAR => !matches!(kind, Kind::Tension | Kind::Compression),
        FIRST_OF_JOINT..=LAST_OF_JOINT => joint_begun,
        _ => false,
    }
}

/// Refuses a row for its lowest cell that is blank or filled against its kind.
pub fn refuse_misfilled<R: Rules>(kind: Kind, cells: &Cells) -> Result<(), Refusal> {
    let begun = R::joint_begun(kind, cells);
    let misfilled =
        |&number: &usize| cell(cells, number).is_some() != R::must_be_filled(kind, number, begun);
    match (1..=CELLS).find(misfilled) {
        Some(number) => Err(refusal(2, number)),
        None => Ok(()),
    }
}

/// What the codes of a filled row stand for, or a refusal for the lowest that is unknown.
pub fn codes<R: Rules>(kind: Kind, cells: &Cells) -> Result<Codes, Refusal> {
    let grade = cell(cells, GRADE).and_then(R::grade);
    let duration = cell(cells, REGIME).and_then(R::duration_factor);
    let table_16_row = cell(cells, TABLE_16_ROW);
    let codes = Codes {
        grade: grade.ok_or(refusal(3, GRADE))?,
        duration: duration.ok_or(refusal(3, REGIME))?,
        table_16_row,
    };
    match table_16_row {
        Some(row) if !R::knows_table_16_row(kind, row) => Err(refusal(3, TABLE_16_ROW)),
        _ => Ok(codes),
    }
}

/// The range of a cell; codes have none.
pub fn range(number: usize) -> Option<RangeInclusive<u64>> {
    match number {
        MOISTURE => Some(0..=60),
        OFFICE_FACTOR => Some(500..=1000),
        WIDTH => Some(20..=300),
        HEIGHT => Some(60..=2500),
        AXIAL => Some(1..=100_000_000),
        MOMENT => Some(1..=10_000_000_000),
        SHEAR => Some(0..=100_000_000),
        LENGTH_H | LENGTH_B => Some(100..=20_000),
        SIDE_THICKNESS => Some(10..=300),
        DIAMETER => Some(6..=40),
        DOWELS_ACROSS => Some(1..=20),
        JOINT_LENGTH => Some(1..=20_000),
        KC | KA | KB | KM => Some(100..=5000),
        KE => Some(0..=5000),
        _ => None,
    }
}

/// Refuses a row for its lowest cell outside its range.
pub fn refuse_outside_range<R: Rules>(cells: &Cells) -> Result<(), Refusal> {
    let outside = |&number: &usize| match (R::range(number), cell(cells, number)) {
        (Some(range), Some(value)) => !range.contains(&value),
        _ => false,
    };
    match (1..=CELLS).find(outside) {
        Some(number) => Err(refusal(4, number)),
        None => Ok(()),
    }
}

/// The member that a row describes. The kind decides what is filled, filled cells can hold codes, and only a row
/// whose codes are known is held to the ranges.
pub fn accept<R: Rules>(cells: &Cells) -> Result<Member, Refusal> {
    let kind = R::kind_of(cells)?;
    R::refuse_misfilled(kind, cells)?;
    let codes = R::codes(kind, cells)?;
    R::refuse_outside_range(cells)?;
    let moisture_factor = R::moisture_factor(cell(cells, MOISTURE).unwrap_or(0));
    Ok(Member::new(kind, codes, moisture_factor, cells))
}

/// The row check: the verdict on a row, or why it is refused.
pub fn check_row<R: Rules>(cells: &Cells) -> Result<Verdict, Refusal> {
    R::accept(cells).map(|member| R::judge(&member))
}
