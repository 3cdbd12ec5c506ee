//! Slenderness and buckling. `side` is the side of the section that a strut bends across; φ is in millionths.
use crate::rules::Rules;

/// Checks 2 and 3: the slenderness, squared and times the side squared, is within its limit.
pub fn slenderness_holds(length: u64, side: u64, limit: u64) -> bool {
    12 * length * length <= limit * limit * side * side
}

/// Whether a strut's slenderness is at most 70, where the first form of φ ends.
pub fn is_stocky(length: u64, side: u64) -> bool {
    slenderness_holds(length, side, 70)
}

/// The first form of φ: what is taken away is rounded up.
pub fn stocky_phi(length: u64, side: u64) -> u64 {
    1_000_000 - (960 * length * length).div_ceil(side * side)
}

/// The second form of φ, rounded down; above one for a short strut.
pub fn slender_phi(length: u64, side: u64) -> u64 {
    250_000_000 * side * side / (length * length)
}

/// φ of checks 9 and 10. It rises where the second form takes over: a longer strut may be the stronger.
pub fn phi<R: Rules>(length: u64, side: u64) -> u64 {
    if R::is_stocky(length, side) {
        R::stocky_phi(length, side)
    } else {
        R::slender_phi(length, side)
    }
}

/// What a strut carries, N, rounded down.
pub fn buckling_capacity(axial_capacity: u64, phi: u64) -> u64 {
    axial_capacity * phi / 1_000_000
}
