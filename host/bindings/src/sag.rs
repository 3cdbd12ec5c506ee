//! A sag check as the host asks for it, its bytes, and what the add-in answers for it.
use crate::row::put_cells;

/// How many cells a sag check has of its own, beside the row.
pub const SAG_CELLS: usize = 3;

/// The bytes of the host's sag check, nine for each cell as in a row.
pub const SAG_BYTES: usize = 9 * SAG_CELLS;

/// The bytes of the answer for a sag check: seven floats.
pub const SAG_ANSWER_BYTES: usize = 56;

/// The cells of a sag check, each blank or a float: the span L in mm, the unfactored moment Mn in N·mm, and n of the
/// limit span / n.
pub type HostSag = [Option<f64>; SAG_CELLS];

/// The bytes that stand for the cells of a sag check.
pub fn host_sag_bytes(cells: &HostSag) -> [u8; SAG_BYTES] {
    let mut bytes = [0; SAG_BYTES];
    put_cells(cells, &mut bytes);
    bytes
}

/// The verdict on the sag of a row that is not refused, with the figures that it follows from.
#[derive(Clone, Copy, Debug, PartialEq, Eq)]
pub struct SagVerdict {
    pub passes: bool,
    /// In millionths, at most 9,999,999.
    pub utilisation: u32,
    /// The modulus of elasticity along the grain of Table В.2а, in MPa.
    pub modulus: u32,
    /// e, the load duration factor for elasticity, in hundredths.
    pub elastic_duration: u32,
    /// w, the moisture factor, in hundredths.
    pub moisture: u32,
    /// E, the design modulus of elasticity in MPa, rounded down.
    pub design_modulus: u32,
    /// Mf, the moment with which bending alone makes the sag span / n, in N·mm, rounded down.
    pub limit_moment: u64,
    /// The factor by which shear enlarges the sag, in millionths: 1,000,000 and shear's part, which is rounded up.
    pub shear_factor: u32,
}
