//! A row as the host has it, and its bytes.

/// How many cells a row has. The sizes of its bytes follow from it.
pub const CELLS: usize = 22;

/// The bytes of the host's row: for each cell one that says whether it is filled and eight of the float.
pub const ROW_BYTES: usize = 9 * CELLS;

/// The bytes of an answer: three floats.
pub const ANSWER_BYTES: usize = 24;

/// The bits of a packed cell that is filled: one that says so, and its value's.
pub const PACKED_CELL_BITS: usize = 1 + 34;

/// The most bytes that a packed row takes: every cell filled, and zero bits to fill the last byte.
pub const PACKED_BYTES: usize = (PACKED_CELL_BITS * CELLS + 7) / 8;

/// The cells of a row, cell 1 first: blank or a float.
pub type HostRow = [Option<f64>; CELLS];

/// The bytes that stand for a row of cells.
pub fn host_bytes(cells: &HostRow) -> [u8; ROW_BYTES] {
    let mut bytes = [0; ROW_BYTES];
    put_cells(cells, &mut bytes);
    bytes
}

/// Puts cells into bytes that are all 0, nine for each.
pub(crate) fn put_cells(cells: &[Option<f64>], bytes: &mut [u8]) {
    for (cell, part) in cells.iter().zip(bytes.chunks_exact_mut(9)) {
        if let Some(number) = cell {
            part[0] = 1;
            part[1..].copy_from_slice(&number.to_bits().to_le_bytes());
        }
    }
}
