//! Document 01's worked rows A, B and E, of which the others are changes, E with the length that request 5 leaves it, rows
//! by their cells, and one of each kind.
use crate::cells::*;
use lvl_addin::row::CELLS;

/// A row with these cells filled.
pub fn row(filled: &[(usize, u64)]) -> Cells {
    let mut cells = [None; CELLS];
    for &(number, value) in filled {
        cells[number - 1] = Some(value);
    }
    cells
}

/// A row with one cell changed.
pub fn with(mut cells: Cells, number: usize, value: u64) -> Cells {
    cells[number - 1] = Some(value);
    cells
}

pub fn a() -> Cells {
    row(&[
        (KIND, 2),
        (GRADE, 1),
        (REGIME, 3),
        (MOISTURE, 10),
        (OFFICE_FACTOR, 1000),
        (WIDTH, 75),
        (HEIGHT, 300),
        (MOMENT, 20_000_000),
        (SHEAR, 20_000),
    ])
}

pub fn b() -> Cells {
    row(&[
        (KIND, 3),
        (GRADE, 3),
        (REGIME, 2),
        (MOISTURE, 13),
        (OFFICE_FACTOR, 1000),
        (WIDTH, 100),
        (HEIGHT, 200),
        (AXIAL, 50_000),
        (LENGTH_H, 3000),
        (LENGTH_B, 2000),
        (TABLE_16_ROW, 1),
    ])
}

pub fn e() -> Cells {
    row(&[
        (KIND, 1),
        (GRADE, 2),
        (REGIME, 4),
        (MOISTURE, 12),
        (OFFICE_FACTOR, 1000),
        (WIDTH, 100),
        (HEIGHT, 200),
        (AXIAL, 100_000),
        (LENGTH_H, 3000),
        (LENGTH_B, 3000),
        (TABLE_16_ROW, 5),
        (SIDE_THICKNESS, 50),
        (DIAMETER, 12),
        (DOWELS_ACROSS, 3),
        (JOINT_LENGTH, 840),
        (KC, 500),
        (KA, 800),
        (KB, 1800),
        (KE, 20),
        (KM, 2500),
    ])
}

/// E with the shortest joint length that holds it.
pub fn shortest_e() -> Cells {
    with(e(), JOINT_LENGTH, 672)
}

/// A row without faults of each kind, the tie with a joint.
pub fn of_every_kind() -> [Cells; 5] {
    let bent_strut = with(with(with(b(), KIND, 4), MOMENT, 2_000_000), SHEAR, 2000);
    let bent_tie = with(with(bent_strut, KIND, 5), TABLE_16_ROW, 5);
    [e(), a(), b(), bent_strut, bent_tie]
}
