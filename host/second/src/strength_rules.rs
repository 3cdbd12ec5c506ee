//! The catalogue of the rules of the request for strengths with remainders, above those of document 01: one method
//! each, as there.
use crate::cells::{Grade, Member};
use crate::exact_strength::{self, Stress, NUMBERS, STRESSES};
use crate::rules::Rules;
use crate::strength_host;
use lvl_addin::answer::Refusal;
use lvl_addin::strengths::STRENGTHS_BYTES;

/// The rules of design strengths with their remainders. Every method is provided.
pub trait StrengthRules: Rules {
    // What is given.

    /// The stresses in the order of the answer.
    fn stresses() -> [Stress; STRESSES] {
        exact_strength::stresses()
    }

    /// Table 7.
    fn table_value(stress: Stress, grade: Grade) -> u64 {
        exact_strength::table_value::<Self>(stress, grade)
    }

    /// R.
    fn strength_in(stress: Stress, member: &Member) -> u64 {
        exact_strength::strength_in::<Self>(stress, member)
    }

    /// The undivided product.
    fn undivided(stress: Stress, member: &Member) -> u64 {
        exact_strength::undivided::<Self>(stress, member)
    }

    /// The remainder of a product's division.
    fn remainder(undivided: u64) -> u64 {
        exact_strength::remainder(undivided)
    }

    /// R and its remainder.
    fn strength_and_remainder(stress: Stress, member: &Member) -> [u64; 2] {
        exact_strength::strength_and_remainder::<Self>(stress, member)
    }

    /// The numbers of the answer.
    fn strength_numbers(member: &Member) -> [u64; NUMBERS] {
        exact_strength::strength_numbers::<Self>(member)
    }

    // The host's bytes.

    /// The member of a row that the check does not refuse, or the check's refusal.
    fn unrefused(row: &[u8]) -> Result<Member, Refusal> {
        strength_host::unrefused::<Self>(row)
    }

    /// The answer's bytes.
    fn strengths_answer_bytes(numbers: &[u64; NUMBERS]) -> [u8; STRENGTHS_BYTES] {
        strength_host::strengths_answer_bytes::<Self>(numbers)
    }

    /// Whether the lent bytes have the answer's length.
    fn strengths_answer_fits(length: usize) -> bool {
        strength_host::strengths_answer_fits(length)
    }

    /// The entry.
    fn strengths_bytes(row: &[u8], answer: &mut [u8]) -> u64 {
        strength_host::strengths_bytes::<Self>(row, answer)
    }
}
