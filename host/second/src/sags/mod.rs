//! Sags to compare implementations on, each with its row: always the same sequence. Those that are listed one by one
//! come first, then random ones, aimed at where a verdict turns.

pub mod faults;
pub mod judged;
mod listed;
mod row_edges;
mod spoilt;

use crate::rows::given::Given;
use crate::rows::random::Random;
use crate::rows::{self, damaged, refused, LONGEST_ROW};
use crate::sag::Sag;
use crate::Cells;
use lvl_addin::row::{ANSWER_BYTES, ROW_BYTES};
use lvl_addin::sag::{host_sag_bytes, SAG_ANSWER_BYTES, SAG_BYTES};

/// The longest sag and answer that a case has. Both go beyond the right length: a sag of more than twice its bytes, an
/// answer with three floats more.
pub const LONGEST_SAG: usize = 60;
pub const LONGEST_ANSWER: usize = SAG_ANSWER_BYTES + ANSWER_BYTES;

/// A row and what is asked of it.
#[derive(Clone, Copy, Debug)]
pub struct Beam {
    pub cells: Cells,
    pub sag: Sag,
}

impl Beam {
    /// The beam with another moment.
    pub fn with_moment(self, moment: u64) -> Beam {
        self.with_sag(Sag { moment, ..self.sag })
    }

    fn with_sag(mut self, sag: Sag) -> Beam {
        self.sag = sag;
        self
    }

    fn with_cell(mut self, number: usize, value: u64) -> Beam {
        self.cells[number - 1] = Some(value);
        self
    }
}

/// One call of the entry.
#[derive(Clone)]
pub struct SagCase {
    row: Given<LONGEST_ROW>,
    sag: Given<LONGEST_SAG>,
    /// How many bytes are lent for the answer.
    pub answer: usize,
}

impl SagCase {
    /// The host's row, of any length.
    pub fn row(&self) -> &[u8] {
        self.row.bytes()
    }

    /// The host's sag, of any length.
    pub fn sag(&self) -> &[u8] {
        self.sag.bytes()
    }

    fn new(row: &[u8; ROW_BYTES], sag: &[u8; SAG_BYTES]) -> SagCase {
        SagCase {
            row: Given::new(row),
            sag: Given::new(sag),
            answer: SAG_ANSWER_BYTES,
        }
    }

    fn of(beam: &Beam) -> SagCase {
        SagCase::new(&rows::bytes_of(&beam.cells), &bytes_of(&beam.sag))
    }
}

/// The host's bytes of a sag, whether or not it is in range.
pub fn bytes_of(sag: &Sag) -> [u8; SAG_BYTES] {
    host_sag_bytes(&[sag.span, sag.moment, sag.limit].map(|number| Some(number as f64)))
}

/// The sequence of cases.
pub struct SagCases {
    listed: std::vec::IntoIter<SagCase>,
    random: Random,
}

impl SagCases {
    /// The one sequence that every test reads, from its beginning.
    pub fn new() -> SagCases {
        let mut listed = listed::cases();
        listed.extend(row_edges::cases());
        listed.extend(spoilt::cases());
        SagCases {
            listed: listed.into_iter(),
            random: Random::new(0x5341_4753_4147_5341),
        }
    }
}

impl Default for SagCases {
    fn default() -> SagCases {
        SagCases::new()
    }
}

impl Iterator for SagCases {
    type Item = SagCase;

    fn next(&mut self) -> Option<SagCase> {
        self.listed
            .next()
            .or_else(|| Some(random_case(&mut self.random)))
    }
}

fn random_case(random: &mut Random) -> SagCase {
    let beam = judged::beam(random);
    let mut sag = match random.below(6) {
        0 => faults::sag(random, &beam.sag),
        _ => bytes_of(&beam.sag),
    };
    let mut row = rows::bytes_of(&match random.below(16) {
        0 | 1 => rows::judged::any_row(random),
        2 | 3 => refused::row(random),
        _ => beam.cells,
    });
    if random.one_in(16) {
        damaged::damage(random, &mut row);
    }
    if random.one_in(16) {
        damaged::damage(random, &mut sag);
    }
    let mut case = SagCase::new(&row, &sag);
    if random.one_in(40) {
        case.row.relength(random);
    }
    if random.one_in(16) {
        case.sag.relength(random);
    }
    if random.one_in(12) {
        case.answer = random.below(LONGEST_ANSWER as u64 + 1) as usize;
    }
    case
}
