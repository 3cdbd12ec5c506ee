//! The floor beam: which loads and spans are taken, and the kind 2 row that is made of them.
use crate::cells::{
    Cells, GRADE, HEIGHT, KIND, MOISTURE, MOMENT, OFFICE_FACTOR, REGIME, SHEAR, WIDTH,
};
use crate::floor_rules::FloorRules;
use lvl_addin::answer::Refusal;
use lvl_addin::floor_beam::BeamVerdict;
use std::ops::{RangeFrom, RangeInclusive};

/// How many cells of a beam come before those of the row: both loads and the span.
pub const LOAD_CELLS: usize = 3;

/// The cells of the row that a beam has after them, by document 01's numbers.
pub const ROW_CELLS: [usize; 5] = [GRADE, MOISTURE, OFFICE_FACTOR, WIDTH, HEIGHT];

/// The codes of what is made of a beam: a bending row in regime Б or В.
const BENDING_CODE: u64 = 2;
const LONG_TERM_CODE: u64 = 2;
const SHORT_TERM_CODE: u64 = 3;

/// What a beam carries, N/m, and its span, mm.
#[derive(Clone, Copy, Debug)]
pub struct Loads {
    /// What is permanent or long-term.
    pub first: u64,
    /// What is neither.
    pub second: u64,
    pub span: u64,
}

/// A beam whose loads and span are taken and whose other cells read.
#[derive(Clone, Copy, Debug)]
pub struct FloorBeam {
    pub loads: Loads,
    /// A row in which only the beam's own cells may be filled.
    pub given: Cells,
}

/// The range of a load by itself: it is the total that has a greatest.
pub fn load_range() -> RangeFrom<u64> {
    0..
}

/// The range of q, N/m.
pub fn total_range() -> RangeInclusive<u64> {
    100..=100_000
}

/// The range of the span, mm.
pub fn span_range() -> RangeInclusive<u64> {
    500..=20_000
}

/// q, N/m.
pub fn total(loads: &Loads) -> u64 {
    loads.first + loads.second
}

/// Whether loads and span are in their ranges.
pub fn loads_fit<R: FloorRules>(loads: &Loads) -> bool {
    R::load_range().contains(&loads.first)
        && R::load_range().contains(&loads.second)
        && R::total_range().contains(&R::total(loads))
        && R::span_range().contains(&loads.span)
}

/// The refusal for a load or a span; neither is a cell of a row.
pub fn load_refusal() -> Refusal {
    Refusal { number: 8, cell: 0 }
}

/// The loads of a beam's first cells as they read: what is blank or does not read is outside its range.
pub fn loads<R: FloorRules>(read: &[Option<Option<u64>>; LOAD_CELLS]) -> Result<Loads, Refusal> {
    let [first, second, span] = read.map(|cell| R::load_cell(cell).ok_or(R::load_refusal()));
    let loads = Loads {
        first: first?,
        second: second?,
        span: span?,
    };
    if R::loads_fit(&loads) {
        Ok(loads)
    } else {
        Err(R::load_refusal())
    }
}

/// The regime's code: Б above 80 percent of permanent and long-term load.
pub fn regime<R: FloorRules>(loads: &Loads) -> u64 {
    if 100 * loads.first > 80 * R::total(loads) {
        LONG_TERM_CODE
    } else {
        SHORT_TERM_CODE
    }
}

/// M of a total load, N·mm.
pub fn beam_moment(total: u64, span: u64) -> u64 {
    (total * span * span).div_ceil(8000)
}

/// Q of a total load, N.
pub fn beam_shear(total: u64, span: u64) -> u64 {
    (total * span).div_ceil(2000)
}

/// The row that is checked for a beam.
pub fn beam_row<R: FloorRules>(beam: &FloorBeam) -> Cells {
    let total = R::total(&beam.loads);
    let mut row = beam.given;
    row[KIND - 1] = Some(BENDING_CODE);
    row[REGIME - 1] = Some(R::regime(&beam.loads));
    row[MOMENT - 1] = Some(R::beam_moment(total, beam.loads.span));
    row[SHEAR - 1] = Some(R::beam_shear(total, beam.loads.span));
    row
}

/// The beam check: the verdict on its row, with what was made of the loads, or why the row is refused.
pub fn check_beam<R: FloorRules>(beam: &FloorBeam) -> Result<BeamVerdict, Refusal> {
    let total = R::total(&beam.loads);
    let verdict = R::check_row(&R::beam_row(beam))?;
    Ok(BeamVerdict {
        verdict,
        regime: R::regime(&beam.loads) as u32,
        moment: R::beam_moment(total, beam.loads.span),
        shear: R::beam_shear(total, beam.loads.span),
    })
}
