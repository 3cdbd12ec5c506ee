//! The row of kind 2 as which a floor beam is judged.
use crate::cell_numbers::{KIND, MOMENT, REGIME, SHEAR_FORCE};
use crate::floor_beams::{OF_ROW, SPAN};
use lvl_addin::floor_beam::{BeamVerdict, HostBeam};
use lvl_addin::row::{HostRow, CELLS};

const BENDING: f64 = 2.0;

/// Cells of the beam as they were typed; the kind, and regime, M and Q as they were found.
pub fn of_beam(cells: &HostBeam, found: &BeamVerdict) -> HostRow {
    let typed = OF_ROW.into_iter().zip(cells[SPAN..].iter().copied());
    let made = [
        (KIND, BENDING),
        (REGIME, f64::from(found.regime)),
        (MOMENT, found.moment as f64),
        (SHEAR_FORCE, found.shear as f64),
    ];
    let made = made.map(|(number, cell)| (number, Some(cell)));
    let mut row = [None; CELLS];
    for (number, cell) in typed.chain(made) {
        row[number - 1] = cell;
    }
    row
}
