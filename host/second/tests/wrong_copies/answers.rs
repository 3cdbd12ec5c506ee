//! What copies do wrong with an answer, whatever the entry that they copy. An entry takes what a host gives, be it one
//! slice of bytes or two, and the lent bytes to the returned number.
use lvl_addin::answer::Refusal;
use lvl_second::{Paper, Rules};

/// Answers of other lengths taken as well: as much is written as fits.
pub fn in_part<G: ?Sized, const BYTES: usize>(
    entry: impl Fn(&G, &mut [u8]) -> u64,
    given: &G,
    answer: &mut [u8],
    taken: impl Fn(usize) -> bool,
) -> u64 {
    if !taken(answer.len()) {
        return entry(given, answer);
    }
    let mut whole = [0; BYTES];
    let code = entry(given, &mut whole);
    if code < 1000 {
        let length = answer.len().min(BYTES);
        answer[..length].copy_from_slice(&whole[..length]);
    }
    code
}

/// The answer's length refused before all that a rule does not refuse.
pub fn fits_before<G: ?Sized, T>(
    entry: impl Fn(&G, &mut [u8]) -> u64,
    given: &G,
    answer: &mut [u8],
    fits: fn(usize) -> bool,
    rule: impl Fn(&G) -> Result<T, Refusal>,
) -> u64 {
    if rule(given).is_ok() && !fits(answer.len()) {
        5000
    } else {
        entry(given, answer)
    }
}

/// The number of a refusal written to the answer as well.
pub fn refusal_written<G: ?Sized>(
    entry: impl Fn(&G, &mut [u8]) -> u64,
    given: &G,
    answer: &mut [u8],
) -> u64 {
    let code = entry(given, answer);
    if code >= 1000 && answer.len() >= 8 {
        answer[..8].copy_from_slice(&Paper::float_bytes(code as f64));
    }
    code
}

/// Nothing written where it should not be, as a copy has it.
pub fn written_only_if<G: ?Sized>(
    entry: impl Fn(&G, &mut [u8]) -> u64,
    given: &G,
    answer: &mut [u8],
    written: impl Fn(u64) -> bool,
) -> u64 {
    let before = answer.to_vec();
    let code = entry(given, answer);
    if !written(code) {
        answer.copy_from_slice(&before);
    }
    code
}

/// An answer with two of its floats exchanged.
pub fn exchanged<const BYTES: usize>(
    mut answer: [u8; BYTES],
    one: usize,
    other: usize,
) -> [u8; BYTES] {
    for byte in 0..8 {
        answer.swap(8 * one + byte, 8 * other + byte);
    }
    answer
}

/// An answer with another float at a place.
pub fn with_float<const BYTES: usize>(
    mut answer: [u8; BYTES],
    at: usize,
    float: f64,
) -> [u8; BYTES] {
    answer[8 * at..8 * at + 8].copy_from_slice(&Paper::float_bytes(float));
    answer
}
