//! A floor beam as the host has it, its bytes, and what the add-in answers for it.
use crate::answer::Verdict;
use crate::row::put_cells;

/// How many cells a floor beam has.
pub const BEAM_CELLS: usize = 8;

/// The bytes of the host's floor beam, nine for each cell as in a row.
pub const BEAM_BYTES: usize = 9 * BEAM_CELLS;

/// The bytes of the answer for a floor beam: six floats.
pub const BEAM_ANSWER_BYTES: usize = 48;

/// A floor beam's cells, each blank or a float: its loads in N/m, first what is permanent or long-term and then the
/// rest, the span in mm; then cells 2, 4, 5, 6 and 7 of a row: grade, moisture, office factor, width, height.
pub type HostBeam = [Option<f64>; BEAM_CELLS];

/// The bytes that stand for a floor beam.
pub fn host_beam_bytes(cells: &HostBeam) -> [u8; BEAM_BYTES] {
    let mut bytes = [0; BEAM_BYTES];
    put_cells(cells, &mut bytes);
    bytes
}

/// The verdict on a floor beam that is not refused, with what was made of its loads.
#[derive(Clone, Copy, Debug, PartialEq, Eq)]
pub struct BeamVerdict {
    /// As of a row of kind 2: check 7 or 8, and no dowels.
    pub verdict: Verdict,
    /// The code of the load duration regime, 2 for Б or 3 for В.
    pub regime: u32,
    /// M in N·mm, rounded up.
    pub moment: u64,
    /// Q in N, rounded up.
    pub shear: u64,
}
