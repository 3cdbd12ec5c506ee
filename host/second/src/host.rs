//! The two entries that a host calls to check or pack a row, on byte slices.
use crate::rules::Rules;
use lvl_addin::answer::{Refusal, Verdict};
use lvl_addin::row::ANSWER_BYTES;

/// The bytes of a verdict: utilisation, count and check number as floats, each of them exact.
pub fn answer_bytes<R: Rules>(verdict: &Verdict) -> [u8; ANSWER_BYTES] {
    let mut bytes = [0; ANSWER_BYTES];
    let numbers = [verdict.utilisation, verdict.count, verdict.check];
    put_floats::<R>(&numbers.map(f64::from), &mut bytes);
    bytes
}

/// Puts floats into an answer, eight bytes for each.
pub fn put_floats<R: Rules>(floats: &[f64], bytes: &mut [u8]) {
    for (part, &float) in bytes.chunks_exact_mut(8).zip(floats) {
        part.copy_from_slice(&R::float_bytes(float));
    }
}

/// The bytes of a float in an answer.
pub fn float_bytes(number: f64) -> [u8; 8] {
    number.to_bits().to_le_bytes()
}

/// Whether an answer fits the lent bytes: only where they are just as many.
pub fn answer_fits(length: usize) -> bool {
    length == ANSWER_BYTES
}

/// The number that is returned for a verdict.
pub fn verdict_code(verdict: &Verdict) -> u64 {
    u64::from(!verdict.passes)
}

/// The number that is returned for a refusal.
pub fn refusal_code(refusal: Refusal) -> u64 {
    1000 * u64::from(refusal.number) + u64::from(refusal.cell)
}

/// Ends an entry: its answer's bytes and returned number, or a refusal. The answer's length is looked at last, and a
/// refusal writes nothing.
pub fn hand_over<R: Rules, const BYTES: usize>(
    right: Result<([u8; BYTES], u64), Refusal>,
    answer: &mut [u8],
    fits: impl Fn(usize) -> bool,
) -> u64 {
    match right {
        Err(refusal) => R::refusal_code(refusal),
        Ok(_) if !fits(answer.len()) => R::refusal_code(Refusal { number: 5, cell: 0 }),
        Ok((bytes, code)) => {
            answer[..BYTES].copy_from_slice(&bytes);
            code
        }
    }
}

/// The entry for checking.
pub fn check_bytes<R: Rules>(row: &[u8], answer: &mut [u8]) -> u64 {
    let judged = R::read_row(row)
        .and_then(|cells| R::check_row(&cells))
        .map(|verdict| (R::answer_bytes(&verdict), R::verdict_code(&verdict)));
    hand_over::<R, ANSWER_BYTES>(judged, answer, R::answer_fits)
}

/// The entry for packing: any row that reads, whether the check would judge or refuse it.
pub fn pack_bytes<R: Rules>(row: &[u8], out: &mut [u8]) -> u64 {
    match R::read_row(row).and_then(|cells| R::pack(&cells, out)) {
        Ok(length) => length as u64,
        Err(refusal) => R::refusal_code(refusal),
    }
}
