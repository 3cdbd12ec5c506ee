//! Bytes lent to both implementations, with guards around them, and what both make of them.
use lvl_second::rows::strength_answers;
use lvl_second::{beams, rows, sags};
use std::fmt::Debug;

/// Bytes to lend, with guards around them.
#[derive(Clone, PartialEq, Eq, Debug)]
pub struct Lent {
    bytes: [u8; Lent::SIZE],
    length: usize,
}

impl Lent {
    const GUARD: usize = 40;
    /// A row's buffer is the longest that any case lends.
    const LONGEST: usize = rows::LONGEST_SPACE;
    const SIZE: usize = (2 * Lent::GUARD + Lent::LONGEST).next_multiple_of(8);

    /// Bytes in a pattern that differs from case to case and from place to place.
    fn new(length: usize, salt: u64) -> Lent {
        let mut bytes = [0; Lent::SIZE];
        for (at, byte) in bytes.iter_mut().enumerate() {
            *byte = (at as u8).wrapping_mul(29) ^ salt as u8;
        }
        Lent { bytes, length }
    }

    pub fn part(&mut self) -> &mut [u8] {
        &mut self.bytes[Lent::GUARD..Lent::GUARD + self.length]
    }
}

const _: () = assert!(rows::LONGEST_ANSWER <= Lent::LONGEST);
const _: () = assert!(beams::LONGEST_ANSWER <= Lent::LONGEST);
const _: () = assert!(strength_answers::LONGEST <= Lent::LONGEST);
const _: () = assert!(sags::LONGEST_ANSWER <= Lent::LONGEST);

/// Lends both implementations equal bytes, holds the results equal, guards included, and gives the returned number and
/// the lent bytes. What is given to them is only told where they differ.
pub fn both_on(
    proved: impl Fn(&mut [u8]) -> u64,
    second: impl Fn(&mut [u8]) -> u64,
    given: impl Debug,
    length: usize,
    salt: u64,
) -> (u64, Lent) {
    let before = Lent::new(length, salt);
    let mut ours = before.clone();
    let mut theirs = before.clone();
    let code = proved(ours.part());
    assert_eq!(
        code,
        second(theirs.part()),
        "case {salt}: {given:?}, {length} bytes lent"
    );
    assert!(
        ours == theirs,
        "case {salt}: {given:?}, returned {code}\nentry  {:?}\nsecond {:?}",
        ours.bytes,
        theirs.bytes
    );
    if code >= 1000 {
        assert!(
            ours == before,
            "case {salt}: {given:?} is refused, and yet bytes are written"
        );
    }
    (code, ours)
}
