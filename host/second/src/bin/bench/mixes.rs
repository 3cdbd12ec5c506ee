//! What is timed: rows, floor beams and sags of several sorts, judged or refused.
use crate::{Entry, FLOOR, SAG};
use lvl_addin::floor_beam::{BEAM_ANSWER_BYTES, BEAM_BYTES};
use lvl_addin::row::{ANSWER_BYTES, ROW_BYTES};
use lvl_addin::sag::{SAG_ANSWER_BYTES, SAG_BYTES};
use lvl_second::rows::random::Random;
use lvl_second::rows::{bytes_of, judged, refused};
use lvl_second::{beams, sags, Cells, Paper, Rules};

/// The rows, beams or sags of a mix: few enough to stay in the cache.
pub const ROWS: usize = 1000;

/// The bytes of a row and of the sag behind it.
const ROW_AND_SAG_BYTES: usize = ROW_BYTES + SAG_BYTES;

/// Rows of one sort, floor beams, or rows and their sags, by their bytes.
pub struct Mix<const BYTES: usize> {
    pub name: &'static str,
    pub rows: Vec<[u8; BYTES]>,
}

impl<const BYTES: usize> Mix<BYTES> {
    /// The first rows of a maker that are as wanted.
    fn new(
        name: &'static str,
        make: impl Fn(&mut Random) -> [u8; BYTES],
        wanted: impl Fn(&[u8; BYTES]) -> bool,
    ) -> Mix<BYTES> {
        let mut random = Random::new(1);
        let rows = std::iter::repeat_with(|| make(&mut random))
            .filter(wanted)
            .take(ROWS)
            .collect();
        Mix { name, rows }
    }
}

/// Whether an entry judges what it is given.
fn is_judged(entry: Entry, given: &[u8], answer: usize) -> bool {
    entry(given, &mut vec![0; answer]) < 1000
}

/// Rows of a maker that are judged, or that are refused.
fn rows(name: &'static str, judged: bool, make: impl Fn(&mut Random) -> Cells) -> Mix<ROW_BYTES> {
    Mix::new(
        name,
        |random| bytes_of(&make(random)),
        |row| is_judged(Paper::check_bytes, row, ANSWER_BYTES) == judged,
    )
}

pub fn of_rows() -> Vec<Mix<ROW_BYTES>> {
    vec![
        rows("kind 1", true, |random| judged::row(random, 1, false)),
        rows("kind 1 joint", true, |random| judged::row(random, 1, true)),
        rows("kind 2", true, |random| judged::row(random, 2, false)),
        rows("kind 3", true, |random| judged::row(random, 3, false)),
        rows("kind 4", true, |random| judged::row(random, 4, false)),
        rows("kind 5", true, |random| judged::row(random, 5, false)),
        rows("all kinds", true, judged::any_row),
        rows("refused", false, refused::row),
    ]
}

/// Beams of a maker that are judged, or that are refused.
fn floor_beams(
    name: &'static str,
    judged: bool,
    make: impl Fn(&mut Random) -> [u8; BEAM_BYTES],
) -> Mix<BEAM_BYTES> {
    Mix::new(name, make, |beam| {
        is_judged(FLOOR.second, beam, BEAM_ANSWER_BYTES) == judged
    })
}

pub fn of_beams() -> Vec<Mix<BEAM_BYTES>> {
    vec![
        floor_beams("beams", true, |random| {
            beams::bytes_of(&beams::judged::beam(random))
        }),
        floor_beams("refused", false, beams::faults::beam),
    ]
}

/// Rows and sags of a maker that are judged, or that are refused.
fn rows_and_sags(
    name: &'static str,
    judged: bool,
    make: impl Fn(&mut Random) -> ([u8; ROW_BYTES], [u8; SAG_BYTES]),
) -> Mix<ROW_AND_SAG_BYTES> {
    let joined = |random: &mut Random| {
        let (row, sag) = make(random);
        let mut given = [0; ROW_AND_SAG_BYTES];
        given[..ROW_BYTES].copy_from_slice(&row);
        given[ROW_BYTES..].copy_from_slice(&sag);
        given
    };
    Mix::new(name, joined, |given| {
        is_judged(SAG.second, given, SAG_ANSWER_BYTES) == judged
    })
}

pub fn of_sags() -> Vec<Mix<ROW_AND_SAG_BYTES>> {
    vec![
        rows_and_sags("sags", true, |random| {
            let beam = sags::judged::beam(random);
            (bytes_of(&beam.cells), sags::bytes_of(&beam.sag))
        }),
        rows_and_sags("refused", false, |random| {
            let beam = sags::judged::beam(random);
            let sag = sags::faults::sag(random, &beam.sag);
            (bytes_of(&beam.cells), sag)
        }),
    ]
}
