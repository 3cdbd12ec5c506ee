//! The entry that a host calls for the design strengths of a row, on byte slices.
use crate::cells::Member;
use crate::exact_strength::NUMBERS;
use crate::host::{hand_over, put_floats};
use crate::strength_rules::StrengthRules;
use lvl_addin::answer::Refusal;
use lvl_addin::strengths::STRENGTHS_BYTES;

/// The number that is returned with strengths: they are no verdict.
const GIVEN: u64 = 0;

/// The member of the host's row, or why the check refuses the row.
pub fn unrefused<R: StrengthRules>(row: &[u8]) -> Result<Member, Refusal> {
    R::read_row(row).and_then(|cells| R::accept(&cells))
}

/// The bytes of the numbers as floats, each of them exact.
pub fn strengths_answer_bytes<R: StrengthRules>(numbers: &[u64; NUMBERS]) -> [u8; STRENGTHS_BYTES] {
    let mut bytes = [0; STRENGTHS_BYTES];
    put_floats::<R>(&numbers.map(|number| number as f64), &mut bytes);
    bytes
}

/// Whether an answer fits the lent bytes: only where they are just as many.
pub fn strengths_answer_fits(length: usize) -> bool {
    length == STRENGTHS_BYTES
}

/// The entry for design strengths.
pub fn strengths_bytes<R: StrengthRules>(row: &[u8], answer: &mut [u8]) -> u64 {
    let given = R::unrefused(row).map(|member| {
        let numbers = R::strength_numbers(&member);
        (R::strengths_answer_bytes(&numbers), GIVEN)
    });
    hand_over::<R, STRENGTHS_BYTES>(given, answer, R::strengths_answer_fits)
}
