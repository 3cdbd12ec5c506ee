//! Beams that are refused, often for several faults at once.
use super::{bytes_of, judged, SPAN};
use crate::floor_beam::{LOAD_CELLS, ROW_CELLS};
use crate::rows::faults::{self, Placed, FAULTS};
use crate::rows::random::Random;
use crate::{FloorRules, Paper, Rules};
use lvl_addin::floor_beam::{BEAM_BYTES, BEAM_CELLS};
use std::ops::RangeInclusive;

/// Every fault of every cell.
pub fn all() -> impl Iterator<Item = Placed> + Clone {
    faults::all(BEAM_CELLS)
}

/// Every two faults of two cells, the lower cell first.
pub fn pairs() -> impl Iterator<Item = [Placed; 2]> {
    faults::pairs(all())
}

/// A beam with one to three faults.
pub fn beam(random: &mut Random) -> [u8; BEAM_BYTES] {
    let mut beam = bytes_of(&judged::beam(random));
    for _ in 0..random.pick(&[1, 1, 1, 2, 2, 3]) {
        let place = random.below(BEAM_CELLS as u64) as usize;
        let fault = random.pick(&FAULTS);
        spoil(random, &mut beam, (place, fault));
    }
    beam
}

/// Gives a beam a fault, in one of the forms that it may have.
pub fn spoil(random: &mut Random, beam: &mut [u8; BEAM_BYTES], fault: Placed) {
    faults::spoil(random, beam, fault, range(fault.0));
}

/// The range of what a place may hold in a beam that is judged. No load is above the greatest total.
fn range(place: usize) -> RangeInclusive<u64> {
    match place {
        SPAN => Paper::span_range(),
        0..LOAD_CELLS => 0..=*Paper::total_range().end(),
        _ => Paper::range(ROW_CELLS[place - LOAD_CELLS]).unwrap_or(1..=3),
    }
}
