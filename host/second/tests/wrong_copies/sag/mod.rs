//! Wrong copies of the sag check: of its own rules, and of those that it shares with the row.
//!
//! Left out, since they are the same rule: E rounded after each factor, for modulus × e and modulus × w are multiples of
//! 100; Mf divided by 5, L and n one after another, each down; the whole shear factor rounded up and not its part above
//! one; a verdict by the utilisation before its cap, or before it is rounded up, for one is a whole number below the
//! cap; Mf no less than 1944; and a blank or unreadable cell of a sag taken for 0, which is outside every range.

mod answering;
mod figures;
mod lending;
mod limit;
mod order;
mod ranges;
mod reading;
mod refusals;
mod shared;
mod shear;
mod utilisation;
mod verdict;

use crate::evidence::Wrong;
use crate::families;
use lvl_second::{Paper, SagRules};

/// A row and a sag as a host gives them.
type Given<'a> = (&'a [u8], &'a [u8]);

/// The right entry.
fn right(&(row, sag): &Given, answer: &mut [u8]) -> u64 {
    Paper::check_sag_bytes(row, sag, answer)
}

/// Of the rules that only this request has.
pub fn own_copies() -> Vec<Wrong> {
    let mut copies = figures::copies();
    for more in [
        limit::copies(),
        shear::copies(),
        utilisation::copies(),
        verdict::copies(),
        refusals::copies(),
        ranges::copies(),
        reading::copies(),
        order::copies(),
        answering::copies(),
        lending::copies(),
        families::of_sags(),
    ] {
        copies.extend(more);
    }
    copies
}

/// Of document 01's rules, which these answers have to show by themselves.
pub fn shared_copies() -> Vec<Wrong> {
    shared::copies()
}
