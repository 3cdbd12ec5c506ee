//! The catalogue of the rules of the request for a beam's sag, above those of document 01: one method each, as there.
use crate::cells::{Cells, Grade, Kind, Member};
use crate::rules::Rules;
use crate::sag::{self, Elastic, Figures, Sag, SagRead};
use crate::sag_host;
use lvl_addin::answer::Refusal;
use lvl_addin::sag::{SagVerdict, SAG_ANSWER_BYTES};
use std::ops::RangeInclusive;

/// The rules of the sag check. Every method is provided.
pub trait SagRules: Rules {
    // Which rows and sags are taken.

    /// Whether a kind has a sag to check.
    fn has_sag(kind: Kind) -> bool {
        sag::has_sag(kind)
    }

    /// Refusal 9.
    fn kind_refusal() -> Refusal {
        sag::kind_refusal()
    }

    /// The member of a row that is neither refused by the check nor of another kind.
    fn sagging_member(cells: &Cells) -> Result<Member, Refusal> {
        sag::sagging_member::<Self>(cells)
    }

    /// The range of L.
    fn sag_span_range() -> RangeInclusive<u64> {
        sag::sag_span_range()
    }

    /// The range of Mn.
    fn sag_moment_range() -> RangeInclusive<u64> {
        sag::sag_moment_range()
    }

    /// The range of n.
    fn sag_limit_range() -> RangeInclusive<u64> {
        sag::sag_limit_range()
    }

    /// Whether L, Mn and n are in their ranges.
    fn sag_fits(sag: &Sag) -> bool {
        sag::sag_fits::<Self>(sag)
    }

    /// The number in a cell of the sag as it reads, if it reads and is filled.
    fn sag_cell(read: Option<Option<u64>>) -> Option<u64> {
        read.flatten()
    }

    /// Refusal 10.
    fn sag_refusal() -> Refusal {
        sag::sag_refusal()
    }

    /// L, Mn and n, or refusal 10.
    fn sag(read: &SagRead) -> Result<Sag, Refusal> {
        sag::sag::<Self>(read)
    }

    // The figures.

    /// Table В.2а.
    fn modulus(grade: Grade) -> u64 {
        sag::modulus(grade)
    }

    /// e of a regime's code.
    fn elastic_duration(code: u64) -> u64 {
        sag::elastic_duration(code)
    }

    /// The modulus of the table, e and w.
    fn elastic(cells: &Cells, member: &Member) -> Elastic {
        sag::elastic::<Self>(cells, member)
    }

    /// E.
    fn design_modulus(elastic: &Elastic) -> u64 {
        sag::design_modulus(elastic)
    }

    /// Mf.
    fn limit_moment(design_modulus: u64, width: u64, height: u64, sag: &Sag) -> u64 {
        sag::limit_moment(design_modulus, width, height, sag)
    }

    /// What shear adds to one.
    fn shear_part(height: u64, span: u64) -> u64 {
        sag::shear_part(height, span)
    }

    /// The shear factor.
    fn shear_factor(height: u64, span: u64) -> u64 {
        sag::shear_factor::<Self>(height, span)
    }

    /// All of them.
    fn figures(cells: &Cells, member: &Member, sag: &Sag) -> Figures {
        sag::figures::<Self>(cells, member, sag)
    }

    // The verdict.

    /// The utilisation.
    fn sag_utilisation(moment: u64, figures: &Figures) -> u64 {
        sag::sag_utilisation::<Self>(moment, figures)
    }

    /// The verdict on an accepted row.
    fn judge_sag(cells: &Cells, member: &Member, sag: &Sag) -> SagVerdict {
        sag::judge_sag::<Self>(cells, member, sag)
    }

    // The host's bytes.

    /// What each cell of the host's sag reads as, or refusal 10 for its length.
    fn read_sag_cells(sag: &[u8]) -> Result<SagRead, Refusal> {
        sag_host::read_sag_cells::<Self>(sag)
    }

    /// The sag, or refusal 10.
    fn read_sag(sag: &[u8]) -> Result<Sag, Refusal> {
        sag_host::read_sag::<Self>(sag)
    }

    /// The verdict, or the first of the refusals but for the answer's length.
    fn check_sag(row: &[u8], sag: &[u8]) -> Result<SagVerdict, Refusal> {
        sag_host::check_sag::<Self>(row, sag)
    }

    /// The answer's bytes.
    fn sag_answer_bytes(verdict: &SagVerdict) -> [u8; SAG_ANSWER_BYTES] {
        sag_host::sag_answer_bytes::<Self>(verdict)
    }

    /// Whether the lent bytes have the answer's length.
    fn sag_answer_fits(length: usize) -> bool {
        sag_host::sag_answer_fits(length)
    }

    /// The number returned for a verdict.
    fn sag_verdict_code(verdict: &SagVerdict) -> u64 {
        sag_host::sag_verdict_code(verdict)
    }

    /// The entry.
    fn check_sag_bytes(row: &[u8], sag: &[u8], answer: &mut [u8]) -> u64 {
        sag_host::check_sag_bytes::<Self>(row, sag, answer)
    }
}
