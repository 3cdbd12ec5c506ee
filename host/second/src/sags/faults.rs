//! Sags that are refused, often for several faults at once.
use super::bytes_of;
use crate::rows::faults::{self, Placed, FAULTS};
use crate::rows::random::Random;
use crate::sag::Sag;
use crate::{Paper, SagRules};
use lvl_addin::sag::{SAG_BYTES, SAG_CELLS};
use std::ops::RangeInclusive;

/// Every fault of every cell of a sag.
pub fn all() -> impl Iterator<Item = Placed> + Clone {
    faults::all(SAG_CELLS)
}

/// Every two faults of two cells, the lower cell first.
pub fn pairs() -> impl Iterator<Item = [Placed; 2]> {
    faults::pairs(all())
}

/// A sag with one to three faults.
pub fn sag(random: &mut Random, sag: &Sag) -> [u8; SAG_BYTES] {
    let mut bytes = bytes_of(sag);
    for _ in 0..random.pick(&[1, 1, 1, 2, 2, 3]) {
        let place = random.below(SAG_CELLS as u64) as usize;
        let fault = random.pick(&FAULTS);
        spoil(random, &mut bytes, (place, fault));
    }
    bytes
}

/// Gives a sag a fault, in one of the forms that it may have.
pub fn spoil(random: &mut Random, sag: &mut [u8; SAG_BYTES], fault: Placed) {
    faults::spoil(random, sag, fault, range(fault.0));
}

/// The range of what a place may hold.
fn range(place: usize) -> RangeInclusive<u64> {
    match place {
        0 => Paper::sag_span_range(),
        1 => Paper::sag_moment_range(),
        _ => Paper::sag_limit_range(),
    }
}
