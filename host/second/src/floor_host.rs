//! The entry that a host calls for a floor beam, on byte slices.
use crate::cells::Cells;
use crate::floor_beam::{FloorBeam, LOAD_CELLS};
use crate::floor_rules::FloorRules;
use crate::host::{hand_over, put_floats};
use crate::reading::read_part;
use lvl_addin::answer::Refusal;
use lvl_addin::floor_beam::{BeamVerdict, BEAM_ANSWER_BYTES, BEAM_BYTES, BEAM_CELLS};
use lvl_addin::row::{ANSWER_BYTES, CELLS};

/// A beam's cells as they read: none where one does not.
pub type BeamRead = [Option<Option<u64>>; BEAM_CELLS];

/// What each cell of the host's beam reads as, or a refusal for its length.
pub fn read_beam_cells<R: FloorRules>(beam: &[u8]) -> Result<BeamRead, Refusal> {
    if beam.len() != BEAM_BYTES {
        return Err(Refusal { number: 1, cell: 0 });
    }
    let mut read = [None; BEAM_CELLS];
    for (cell, part) in read.iter_mut().zip(beam.chunks_exact(9)) {
        *cell = read_part::<R>(part);
    }
    Ok(read)
}

/// The row's cells of a beam at their places in a row, or a refusal for the lowest that does not read.
pub fn given_cells<R: FloorRules>(read: &BeamRead) -> Result<Cells, Refusal> {
    let mut given = [None; CELLS];
    for (number, cell) in R::row_cells().into_iter().zip(&read[LOAD_CELLS..]) {
        given[number - 1] = cell.ok_or(R::unreadable(number))?;
    }
    Ok(given)
}

/// The host's beam. Its loads and span come before all that belongs to the row.
pub fn read_beam<R: FloorRules>(beam: &[u8]) -> Result<FloorBeam, Refusal> {
    let read = R::read_beam_cells(beam)?;
    let [first, second, span, ..] = read;
    Ok(FloorBeam {
        loads: R::loads(&[first, second, span])?,
        given: R::given_cells(&read)?,
    })
}

/// The bytes of a beam's verdict: those of the row's, then regime, M and Q as floats, each of them exact.
pub fn beam_answer_bytes<R: FloorRules>(verdict: &BeamVerdict) -> [u8; BEAM_ANSWER_BYTES] {
    let mut bytes = [0; BEAM_ANSWER_BYTES];
    let (row, made) = bytes.split_at_mut(ANSWER_BYTES);
    row.copy_from_slice(&R::answer_bytes(&verdict.verdict));
    let made_of_loads = [
        f64::from(verdict.regime),
        verdict.moment as f64,
        verdict.shear as f64,
    ];
    put_floats::<R>(&made_of_loads, made);
    bytes
}

/// Whether a beam's answer fits the lent bytes: only where they are just as many.
pub fn beam_answer_fits(length: usize) -> bool {
    length == BEAM_ANSWER_BYTES
}

/// The entry for a floor beam.
pub fn check_beam_bytes<R: FloorRules>(beam: &[u8], answer: &mut [u8]) -> u64 {
    let judged = R::read_beam(beam)
        .and_then(|beam| R::check_beam(&beam))
        .map(|verdict| {
            (
                R::beam_answer_bytes(&verdict),
                R::verdict_code(&verdict.verdict),
            )
        });
    hand_over::<R, BEAM_ANSWER_BYTES>(judged, answer, R::beam_answer_fits)
}
