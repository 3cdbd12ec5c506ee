//! Rows that the check refuses, all but a few, often for several faults at once.
use super::judged;
use super::random::Random;
use crate::cells::*;
use crate::{Paper, Rules};
use lvl_addin::row::CELLS;

/// A row with one to three faults.
pub fn row(random: &mut Random) -> Cells {
    if random.one_in(16) {
        return noise(random);
    }
    let mut cells = judged::any_row(random);
    for _ in 0..random.pick(&[1, 1, 1, 2, 2, 3]) {
        spoil(random, &mut cells);
    }
    cells
}

/// A row with a power of two added to one cell, so that it would look right in fewer bits; judged where the range of the
/// cell holds the sum.
pub fn row_with_a_high_bit(random: &mut Random) -> Cells {
    let mut cells = judged::any_row(random);
    let filled = cells.iter().flatten().count() as u64;
    let place = random.below(filled) as usize;
    if let Some(value) = cells.iter_mut().flatten().nth(place) {
        *value += 1 << random.pick(&[8, 14, 15, 16, 17, 32, 33]);
    }
    cells
}

fn spoil(random: &mut Random, cells: &mut Cells) {
    let number = random.between(1, CELLS as u64) as usize;
    match random.below(9) {
        0 | 1 => cells[number - 1] = None,
        2 => cells[number - 1] = Some(in_range(random, number)),
        3 | 4 => unknown_code(random, cells),
        5 => begin_joint(random, cells),
        _ => leave_range(random, cells),
    }
}

/// A code that its cell does not know, or the kind not.
fn unknown_code(random: &mut Random, cells: &mut Cells) {
    let number = random.pick(&[KIND, GRADE, REGIME, TABLE_16_ROW]);
    let code = match random.below(8) {
        0 => random.below(1 << 34),
        1 => (1 << 34) - 1,
        _ => random.below(14),
    };
    if cells[number - 1].is_some() {
        cells[number - 1] = Some(code);
    }
}

/// A value at an end of its range or one beyond, or far outside.
fn leave_range(random: &mut Random, cells: &mut Cells) {
    let number = random.between(1, CELLS as u64) as usize;
    let Some(range) = Paper::range(number) else {
        return;
    };
    if cells[number - 1].is_some() {
        cells[number - 1] = Some(match random.below(8) {
            0 => random.below(1 << 34),
            1 => (1 << 34) - random.below(2),
            2 => random.bits() >> random.below(30),
            3 | 4 => range.start().saturating_sub(1),
            _ => range.end() + 1,
        });
    }
}

fn in_range(random: &mut Random, number: usize) -> u64 {
    match Paper::range(number) {
        Some(range) => random.between(*range.start(), *range.end()),
        None => random.between(1, 5),
    }
}

/// Fills one or some of the joint's cells and blanks the others.
fn begin_joint(random: &mut Random, cells: &mut Cells) {
    let only = random.between(FIRST_OF_JOINT as u64, LAST_OF_JOINT as u64) as usize;
    let others = random.pick(&[1, 2, 5]);
    for number in FIRST_OF_JOINT..=LAST_OF_JOINT {
        let filled = number == only || !random.one_in(others);
        cells[number - 1] = filled.then(|| in_range(random, number));
    }
}

/// Any cells at all.
fn noise(random: &mut Random) -> Cells {
    let mut cells = [None; CELLS];
    let blanks = random.pick(&[1, 2, 10]);
    for cell in cells.iter_mut() {
        if !random.one_in(blanks) {
            *cell = Some(random.bits() >> random.between(30, 63));
        }
    }
    cells
}
