//! What may be wrong with a cell of the host's, be it one of a row, of a floor beam or of a sag, in the forms that it may
//! have.
use super::bytes_of;
use super::damaged::{put, FLOATS};
use super::random::Random;
use crate::cells::{cell, Cells, GRADE, KIND, REGIME, TABLE_16_ROW};
use crate::{Paper, Rules};
use lvl_addin::row::{CELLS, ROW_BYTES};
use std::ops::RangeInclusive;

/// What may be wrong with a cell.
#[derive(Clone, Copy, Debug, PartialEq, Eq)]
pub enum Fault {
    Blank,
    /// Another first byte, or a float that is no whole number.
    Unreadable,
    /// Outside its range; an unknown code where it is a code.
    Outside,
}

pub const FAULTS: [Fault; 3] = [Fault::Blank, Fault::Unreadable, Fault::Outside];

/// A fault by the place of its cell, from 0.
pub type Placed = (usize, Fault);

/// Every fault of so many cells.
pub fn all(cells: usize) -> impl Iterator<Item = Placed> + Clone {
    (0..cells).flat_map(|place| FAULTS.map(|fault| (place, fault)))
}

/// Every two faults of two cells, the lower cell first.
pub fn pairs(all: impl Iterator<Item = Placed> + Clone) -> impl Iterator<Item = [Placed; 2]> {
    all.clone().flat_map(move |low| {
        all.clone()
            .filter(move |high| high.0 > low.0)
            .map(move |high| [low, high])
    })
}

/// The faults that a good row may be given; to be blank is none in a cell that has to be.
pub fn of_row(cells: &Cells) -> impl Iterator<Item = Placed> + Clone + '_ {
    all(CELLS).filter(|&(place, fault)| cells[place].is_some() || fault != Fault::Blank)
}

/// A good row with these faults, each in one of its forms.
pub fn spoilt_row(random: &mut Random, cells: &Cells, faults: &[Placed]) -> [u8; ROW_BYTES] {
    let mut row = bytes_of(cells);
    for &fault in faults {
        spoil(random, &mut row, fault, range_in_row(cells, fault.0 + 1));
    }
    row
}

/// What a cell of a row may hold; the codes of Table 16 depend on the kind.
fn range_in_row(cells: &Cells, number: usize) -> RangeInclusive<u64> {
    match number {
        KIND => 1..=5,
        GRADE => 1..=3,
        REGIME => 1..=11,
        TABLE_16_ROW if matches!(cell(cells, KIND), Some(3 | 4)) => 1..=3,
        TABLE_16_ROW => 4..=5,
        _ => Paper::range(number).expect("every other cell has a range"),
    }
}

/// Gives a cell a fault, in one of the forms that it may have; `range` is what the cell may hold.
pub fn spoil(
    random: &mut Random,
    bytes: &mut [u8],
    (place, fault): Placed,
    range: RangeInclusive<u64>,
) {
    let at = 9 * place;
    match fault {
        // The bits that stay have no meaning.
        Fault::Blank => bytes[at] = 0,
        Fault::Unreadable if random.one_in(2) => bytes[at] = random.between(2, 255) as u8,
        Fault::Unreadable => fill(bytes, at, no_whole_number(random)),
        Fault::Outside => {
            let number = outside(random, range);
            fill(bytes, at, (number as f64).to_bits());
        }
    }
}

fn fill(bytes: &mut [u8], at: usize, bits: u64) {
    bytes[at] = 1;
    put(bytes, at, bits);
}

fn no_whole_number(random: &mut Random) -> u64 {
    loop {
        let bits = random.pick(&FLOATS);
        if Paper::whole_number(bits).is_none() {
            return bits;
        }
    }
}

/// A number that reads and is outside its range: next to an end, far off, or one that would look right in fewer bits.
fn outside(random: &mut Random, range: RangeInclusive<u64>) -> u64 {
    let (least, greatest) = range.into_inner();
    match random.below(8) {
        0 => random.between(greatest + 1, (1 << 34) - 1),
        1 => (1 << 34) - random.between(1, 2),
        2 if greatest < 1 << 32 => (1 << random.pick(&[32, 33])) + random.between(least, greatest),
        3 if greatest < 1 << 16 => (1 << 16) + random.between(least, greatest),
        4 | 5 if least > 0 => least - 1,
        _ => greatest + 1,
    }
}
