//! Floor beams to compare implementations on: always the same sequence. Those that are listed one by one come first,
//! then random ones, aimed at where a verdict turns.

pub mod faults;
pub mod judged;
mod listed;

use crate::floor_beam::{FloorBeam, Loads, LOAD_CELLS, ROW_CELLS};
use crate::rows::damaged;
use crate::rows::given::Given;
use crate::rows::random::Random;
use lvl_addin::floor_beam::{host_beam_bytes, BEAM_ANSWER_BYTES, BEAM_BYTES, BEAM_CELLS};
use lvl_addin::row::CELLS;

/// The longest beam and answer that a case has. Both go beyond the right length: a beam with two cells more, an answer
/// of twice its bytes.
pub const LONGEST_BEAM: usize = BEAM_BYTES + 18;
pub const LONGEST_ANSWER: usize = 2 * BEAM_ANSWER_BYTES;

/// The places of both loads, the span, the width and the height in a beam.
pub const FIRST_LOAD: usize = 0;
pub const SECOND_LOAD: usize = 1;
pub const SPAN: usize = 2;
pub const WIDTH: usize = 6;
pub const HEIGHT: usize = 7;

/// The numbers of a beam with no blank cell.
pub type Numbers = [u64; BEAM_CELLS];

/// One call of the entry.
#[derive(Clone)]
pub struct BeamCase {
    given: Given<LONGEST_BEAM>,
    /// How many bytes are lent for the answer.
    pub answer: usize,
}

impl BeamCase {
    /// The host's beam, of any length.
    pub fn beam(&self) -> &[u8] {
        self.given.bytes()
    }

    fn new(beam: &[u8; BEAM_BYTES]) -> BeamCase {
        BeamCase {
            given: Given::new(beam),
            answer: BEAM_ANSWER_BYTES,
        }
    }
}

/// The host's bytes of a beam.
pub fn bytes_of(beam: &Numbers) -> [u8; BEAM_BYTES] {
    host_beam_bytes(&beam.map(|number| Some(number as f64)))
}

/// A beam as the second implementation has it, whether or not its loads are in range.
pub fn floor_beam(beam: &Numbers) -> FloorBeam {
    let mut given = [None; CELLS];
    for (number, &value) in ROW_CELLS.iter().zip(&beam[LOAD_CELLS..]) {
        given[number - 1] = Some(value);
    }
    FloorBeam {
        loads: Loads {
            first: beam[FIRST_LOAD],
            second: beam[SECOND_LOAD],
            span: beam[SPAN],
        },
        given,
    }
}

/// The sequence of cases.
pub struct BeamCases {
    listed: std::vec::IntoIter<BeamCase>,
    random: Random,
}

impl BeamCases {
    /// The one sequence that every test reads, from its beginning.
    pub fn new() -> BeamCases {
        BeamCases {
            listed: listed::cases().into_iter(),
            random: Random::new(0x464C_4F4F_5242_4541),
        }
    }
}

impl Default for BeamCases {
    fn default() -> BeamCases {
        BeamCases::new()
    }
}

impl Iterator for BeamCases {
    type Item = BeamCase;

    fn next(&mut self) -> Option<BeamCase> {
        self.listed
            .next()
            .or_else(|| Some(random_case(&mut self.random)))
    }
}

fn random_case(random: &mut Random) -> BeamCase {
    let mut beam = match random.below(16) {
        0..=11 => bytes_of(&judged::beam(random)),
        _ => faults::beam(random),
    };
    if random.one_in(12) {
        damaged::damage(random, &mut beam);
    }
    let mut case = BeamCase::new(&beam);
    if random.one_in(40) {
        case.given.relength(random);
    }
    if random.one_in(12) {
        case.answer = random.below(LONGEST_ANSWER as u64 + 1) as usize;
    }
    case
}
