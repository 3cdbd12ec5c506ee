//! Both implementations called on the same bytes, with guards around what is lent.
mod lent;

use lent::{both_on, Lent};

/// An entry: what the host gives and the lent bytes to the returned number.
pub type Entry = fn(&[u8], &mut [u8]) -> u64;

/// Calls both implementations on the same bytes with equal ones lent, holds the results equal, guards included, and
/// gives the returned number and the lent bytes.
pub fn both(proved: Entry, second: Entry, given: &[u8], length: usize, salt: u64) -> (u64, Lent) {
    both_on(
        |lent| proved(given, lent),
        |lent| second(given, lent),
        given,
        length,
        salt,
    )
}
