//! The entry that a host calls for the sag of a row, on byte slices.
use crate::host::{hand_over, put_floats};
use crate::reading::read_part;
use crate::sag::{Sag, SagRead};
use crate::sag_rules::SagRules;
use lvl_addin::answer::Refusal;
use lvl_addin::sag::{SagVerdict, SAG_ANSWER_BYTES, SAG_BYTES, SAG_CELLS};

/// What each cell of the host's sag reads as, or a refusal for its length.
pub fn read_sag_cells<R: SagRules>(sag: &[u8]) -> Result<SagRead, Refusal> {
    if sag.len() != SAG_BYTES {
        return Err(R::sag_refusal());
    }
    let mut read = [None; SAG_CELLS];
    for (cell, part) in read.iter_mut().zip(sag.chunks_exact(9)) {
        *cell = read_part::<R>(part);
    }
    Ok(read)
}

/// The host's sag.
pub fn read_sag<R: SagRules>(sag: &[u8]) -> Result<Sag, Refusal> {
    R::sag(&R::read_sag_cells(sag)?)
}

/// The sag check of the host's bytes. The row comes before its kind, and both before the sag.
pub fn check_sag<R: SagRules>(row: &[u8], sag: &[u8]) -> Result<SagVerdict, Refusal> {
    let cells = R::read_row(row)?;
    let member = R::sagging_member(&cells)?;
    let sag = R::read_sag(sag)?;
    Ok(R::judge_sag(&cells, &member, &sag))
}

/// The bytes of a verdict: seven floats, each of them exact.
pub fn sag_answer_bytes<R: SagRules>(verdict: &SagVerdict) -> [u8; SAG_ANSWER_BYTES] {
    let mut bytes = [0; SAG_ANSWER_BYTES];
    let floats = [
        f64::from(verdict.utilisation),
        f64::from(verdict.modulus),
        f64::from(verdict.elastic_duration),
        f64::from(verdict.moisture),
        f64::from(verdict.design_modulus),
        verdict.limit_moment as f64,
        f64::from(verdict.shear_factor),
    ];
    put_floats::<R>(&floats, &mut bytes);
    bytes
}

/// Whether an answer fits the lent bytes: only where they are just as many.
pub fn sag_answer_fits(length: usize) -> bool {
    length == SAG_ANSWER_BYTES
}

/// The number that is returned for a verdict.
pub fn sag_verdict_code(verdict: &SagVerdict) -> u64 {
    u64::from(!verdict.passes)
}

/// The entry for a sag.
pub fn check_sag_bytes<R: SagRules>(row: &[u8], sag: &[u8], answer: &mut [u8]) -> u64 {
    let judged = R::check_sag(row, sag)
        .map(|verdict| (R::sag_answer_bytes(&verdict), R::sag_verdict_code(&verdict)));
    hand_over::<R, SAG_ANSWER_BYTES>(judged, answer, R::sag_answer_fits)
}
