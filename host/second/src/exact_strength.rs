//! Design strengths with what their rounding down drops.
use crate::cells::{Grade, Member};
use crate::strength_rules::StrengthRules;

/// What a material is stressed by.
#[derive(Clone, Copy, Debug, PartialEq, Eq)]
pub enum Stress {
    Bending,
    Compression,
    Tension,
    Shear,
}

/// How many stresses there are, and how many numbers are given for them.
pub const STRESSES: usize = 4;
pub const NUMBERS: usize = 2 * STRESSES;

/// The stresses in the order in which their strengths are given.
pub fn stresses() -> [Stress; STRESSES] {
    [
        Stress::Bending,
        Stress::Compression,
        Stress::Tension,
        Stress::Shear,
    ]
}

/// The strength of Table 7 in a stress, kPa.
pub fn table_value<R: StrengthRules>(stress: Stress, grade: Grade) -> u64 {
    match stress {
        Stress::Bending => R::bending_strength(grade),
        Stress::Compression => R::compression_strength(grade),
        Stress::Tension => R::tension_strength(grade),
        Stress::Shear => R::shear_strength(grade),
    }
}

/// R in a stress, kPa: the one that the checks take.
pub fn strength_in<R: StrengthRules>(stress: Stress, member: &Member) -> u64 {
    match stress {
        Stress::Bending => R::design_bending(member),
        Stress::Compression => R::design_compression(member),
        Stress::Tension => R::design_tension(member),
        Stress::Shear => R::design_shear(member),
    }
}

/// The product that R is the quotient of.
pub fn undivided<R: StrengthRules>(stress: Stress, member: &Member) -> u64 {
    R::table_value(stress, member.grade) * R::factor_product(&member.factors)
}

/// What the division of a product leaves. It is taken from the product alone, so that nothing makes it agree with R
/// but that both are right.
pub fn remainder(undivided: u64) -> u64 {
    undivided % 10_000_000
}

/// R in a stress and the remainder of its division.
pub fn strength_and_remainder<R: StrengthRules>(stress: Stress, member: &Member) -> [u64; 2] {
    [
        R::strength_in(stress, member),
        R::remainder(R::undivided(stress, member)),
    ]
}

/// All that is given for a member, whatever its kind.
pub fn strength_numbers<R: StrengthRules>(member: &Member) -> [u64; NUMBERS] {
    let mut numbers = [0; NUMBERS];
    for (pair, stress) in numbers.chunks_exact_mut(2).zip(R::stresses()) {
        pair.copy_from_slice(&R::strength_and_remainder(stress, member));
    }
    numbers
}
