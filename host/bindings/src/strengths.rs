//! What the add-in answers for the design strengths of a row.

/// The bytes of the answer: eight floats.
pub const STRENGTHS_BYTES: usize = 64;

/// R is a product divided by this: a remainder counts such parts of a kPa.
pub const STRENGTH_DIVISOR: u32 = 10_000_000;

/// A design strength R as the checks use it, rounded down, and exactly what the rounding dropped.
///
/// R unrounded is `kpa` + `remainder` / [`STRENGTH_DIVISOR`].
#[derive(Clone, Copy, Debug, PartialEq, Eq)]
pub struct Strength {
    /// In kPa, rounded down.
    pub kpa: u32,
    /// Less than [`STRENGTH_DIVISOR`].
    pub remainder: u32,
}

/// The design strengths of a row that is not refused, whatever its kind.
#[derive(Clone, Copy, Debug, PartialEq, Eq)]
pub struct Strengths {
    pub bending: Strength,
    pub compression: Strength,
    pub tension: Strength,
    pub shear: Strength,
}
