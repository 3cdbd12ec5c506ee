//! The catalogue of the floor-beam request's rules, above those of document 01: one method each, as there.
use crate::cells::Cells;
use crate::floor_beam::{FloorBeam, Loads, LOAD_CELLS, ROW_CELLS};
use crate::floor_host::BeamRead;
use crate::rules::Rules;
use crate::{floor_beam, floor_host};
use lvl_addin::answer::Refusal;
use lvl_addin::floor_beam::{BeamVerdict, BEAM_ANSWER_BYTES};
use std::ops::{RangeFrom, RangeInclusive};

/// The rules of the floor beam. Every method is provided.
pub trait FloorRules: Rules {
    // Which loads and spans are taken.

    /// The range of each load.
    fn load_range() -> RangeFrom<u64> {
        floor_beam::load_range()
    }

    /// The range of q.
    fn total_range() -> RangeInclusive<u64> {
        floor_beam::total_range()
    }

    /// The range of the span.
    fn span_range() -> RangeInclusive<u64> {
        floor_beam::span_range()
    }

    /// q.
    fn total(loads: &Loads) -> u64 {
        floor_beam::total(loads)
    }

    /// Whether loads and span are in their ranges.
    fn loads_fit(loads: &Loads) -> bool {
        floor_beam::loads_fit::<Self>(loads)
    }

    /// The number in a load's or the span's cell as it reads, if it reads and is filled.
    fn load_cell(read: Option<Option<u64>>) -> Option<u64> {
        read.flatten()
    }

    /// Refusal 8.
    fn load_refusal() -> Refusal {
        floor_beam::load_refusal()
    }

    /// The loads and the span, or refusal 8.
    fn loads(read: &[Option<Option<u64>>; LOAD_CELLS]) -> Result<Loads, Refusal> {
        floor_beam::loads::<Self>(read)
    }

    // The row that is made of a beam, and its check.

    /// The regime's code.
    fn regime(loads: &Loads) -> u64 {
        floor_beam::regime::<Self>(loads)
    }

    /// M.
    fn beam_moment(total: u64, span: u64) -> u64 {
        floor_beam::beam_moment(total, span)
    }

    /// Q.
    fn beam_shear(total: u64, span: u64) -> u64 {
        floor_beam::beam_shear(total, span)
    }

    /// The row.
    fn beam_row(beam: &FloorBeam) -> Cells {
        floor_beam::beam_row::<Self>(beam)
    }

    /// The beam check.
    fn check_beam(beam: &FloorBeam) -> Result<BeamVerdict, Refusal> {
        floor_beam::check_beam::<Self>(beam)
    }

    // The host's bytes.

    /// What each cell of the host's beam reads as, or refusal 1 for its length.
    fn read_beam_cells(beam: &[u8]) -> Result<BeamRead, Refusal> {
        floor_host::read_beam_cells::<Self>(beam)
    }

    /// The numbers of the row's cells that a beam has.
    fn row_cells() -> [usize; ROW_CELLS.len()] {
        ROW_CELLS
    }

    /// Refusal 1 for a cell of the row.
    fn unreadable(number: usize) -> Refusal {
        Refusal {
            number: 1,
            cell: number as u32,
        }
    }

    /// The row's cells of a beam, or refusal 1.
    fn given_cells(read: &BeamRead) -> Result<Cells, Refusal> {
        floor_host::given_cells::<Self>(read)
    }

    /// The beam, or the first of the refusals before the row's own.
    fn read_beam(beam: &[u8]) -> Result<FloorBeam, Refusal> {
        floor_host::read_beam::<Self>(beam)
    }

    /// The answer's bytes.
    fn beam_answer_bytes(verdict: &BeamVerdict) -> [u8; BEAM_ANSWER_BYTES] {
        floor_host::beam_answer_bytes::<Self>(verdict)
    }

    /// Whether the lent bytes have the answer's length.
    fn beam_answer_fits(length: usize) -> bool {
        floor_host::beam_answer_fits(length)
    }

    /// The entry.
    fn check_beam_bytes(beam: &[u8], answer: &mut [u8]) -> u64 {
        floor_host::check_beam_bytes::<Self>(beam, answer)
    }
}
