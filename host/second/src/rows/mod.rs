//! Rows to compare implementations on: always the same sequence, aimed at where a verdict turns.

pub mod damaged;
pub mod faults;
pub mod forces;
pub mod given;
pub mod inputs;
pub mod judged;
pub mod random;
pub mod refused;
pub mod strength_answers;
pub mod worked;

use crate::{Cells, Paper, Rules};
use given::Given;
use lvl_addin::row::{
    host_bytes, HostRow, ANSWER_BYTES, CELLS, PACKED_BYTES, PACKED_CELL_BITS, ROW_BYTES,
};
use random::Random;

/// The longest row, answer and buffer that a case has. Each goes beyond the right length, so that what is too long is
/// tried as well as what is too short: a row with a byte more for each cell, an answer of twice its bytes, and a
/// buffer as long as if every packed cell took whole bytes.
pub const LONGEST_ROW: usize = ROW_BYTES + CELLS;
pub const LONGEST_ANSWER: usize = 2 * ANSWER_BYTES;
pub const LONGEST_SPACE: usize = PACKED_CELL_BITS.div_ceil(8) * CELLS;

/// One call to check a row and one to pack it.
#[derive(Clone)]
pub struct Case {
    given: Given<LONGEST_ROW>,
    /// How many bytes are lent for the answer.
    pub answer: usize,
    /// How many bytes are lent for the packed row.
    pub space: usize,
}

impl Case {
    /// The host's row, of any length.
    pub fn row(&self) -> &[u8] {
        self.given.bytes()
    }

    fn new(row: &[u8; ROW_BYTES]) -> Case {
        Case {
            given: Given::new(row),
            answer: ANSWER_BYTES,
            space: PACKED_BYTES,
        }
    }
}

/// The host's bytes of whole numbers. Those above 53 bits lose their last ones, which no row needs.
pub fn bytes_of(cells: &Cells) -> [u8; ROW_BYTES] {
    let mut floats: HostRow = [None; CELLS];
    for (float, cell) in floats.iter_mut().zip(cells) {
        *float = cell.map(|value| value as f64);
    }
    host_bytes(&floats)
}

/// The sequence of cases.
pub struct Cases {
    random: Random,
}

impl Cases {
    /// The one sequence that every test reads, from its beginning.
    pub fn new() -> Cases {
        Cases {
            random: Random::new(0x5041_5045_5230_3031),
        }
    }
}

impl Default for Cases {
    fn default() -> Cases {
        Cases::new()
    }
}

impl Iterator for Cases {
    type Item = Case;

    fn next(&mut self) -> Option<Case> {
        let random = &mut self.random;
        let cells = match random.below(16) {
            0..=11 => judged::any_row(random),
            12 => refused::row_with_a_high_bit(random),
            _ => refused::row(random),
        };
        let mut row = bytes_of(&cells);
        if random.one_in(8) {
            damaged::damage(random, &mut row);
        }
        let mut case = Case::new(&row);
        if random.one_in(40) {
            case.given.relength(random);
        }
        if random.one_in(12) {
            case.answer = random.below(LONGEST_ANSWER as u64 + 1) as usize;
        }
        case.space = space(random, &cells);
        Some(case)
    }
}

/// Space for a packed row: around what it takes, or any.
fn space(random: &mut Random, cells: &Cells) -> usize {
    match random.below(8) {
        0 => Paper::packed_length(cells) - 1,
        1 => Paper::packed_length(cells),
        2 => random.below(LONGEST_SPACE as u64 + 1) as usize,
        3 => LONGEST_SPACE,
        _ => PACKED_BYTES,
    }
}
