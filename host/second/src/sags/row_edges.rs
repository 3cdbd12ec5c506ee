//! Rows of every kind with one cell at an edge of what it may hold: what a sag's row is refused for, and what it is not.
use super::listed::GOOD_SAG;
use super::{Beam, SagCase};
use crate::cells::{cell, Cells, KIND, TABLE_16_ROW};
use crate::rows::worked::{b, of_every_kind, with};
use crate::{Paper, Rules};
use lvl_addin::row::CELLS;

/// A row of each kind, and a tie without a joint.
pub fn rows_of_every_kind() -> Vec<Cells> {
    let tie = with(with(b(), KIND, 1), TABLE_16_ROW, 5);
    let mut rows = of_every_kind().to_vec();
    rows.push(tie);
    rows
}

/// Every filled cell of a row of each kind at the ends of its range, next to them and beyond, and with every code up to
/// some that are not known.
pub fn cases() -> Vec<SagCase> {
    let mut cases = Vec::new();
    for cells in rows_of_every_kind() {
        for number in (1..=CELLS).filter(|&number| cell(&cells, number).is_some()) {
            let beam = |value| Beam {
                cells: with(cells, number, value),
                sag: GOOD_SAG,
            };
            let of_value = |value| SagCase::of(&beam(value));
            cases.extend(edges(number).into_iter().map(of_value));
        }
    }
    cases
}

/// The edges of what a cell may hold.
fn edges(number: usize) -> Vec<u64> {
    match Paper::range(number) {
        Some(range) => [*range.start(), *range.end()]
            .into_iter()
            .flat_map(|end| end.saturating_sub(1)..=end + 1)
            .collect(),
        None => (0..=13).collect(),
    }
}
