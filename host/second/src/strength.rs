//! Design strengths and the capacities of a cross-section, each rounded down.
use crate::cells::Factors;

/// t × w × o, in ten-millionths.
pub fn factor_product(factors: &Factors) -> u64 {
    factors.duration * factors.moisture * factors.office
}

/// R, kPa.
pub fn design_strength(table_value: u64, factor_product: u64) -> u64 {
    table_value * factor_product / 10_000_000
}

/// What a rectangle carries along the grain, N: `width` is that of all its parts together.
pub fn axial_capacity(width: u64, height: u64, strength: u64) -> u64 {
    width * height * strength / 1000
}

/// MR, N·mm.
pub fn bending_capacity(width: u64, height: u64, strength: u64) -> u64 {
    width * height * height * strength / 6000
}

/// What a rectangle carries in shear, N.
pub fn shear_capacity(width: u64, height: u64, strength: u64) -> u64 {
    2 * width * height * strength / 3000
}
