//! Safe bindings over the add-in's C entries.
use crate::answer::{Refusal, Verdict};
use crate::floor_beam::{host_beam_bytes, BeamVerdict, HostBeam, BEAM_ANSWER_BYTES};
use crate::row::{host_bytes, HostRow, ANSWER_BYTES, PACKED_BYTES};
use crate::sag::{host_sag_bytes, HostSag, SagVerdict, SAG_ANSWER_BYTES};
use crate::strengths::{Strength, Strengths, STRENGTHS_BYTES};

mod c {
    extern "C" {
        pub fn lvl_check_row(
            row: *const u8,
            row_len: usize,
            answer: *mut u8,
            answer_len: usize,
        ) -> u64;
        pub fn lvl_pack_row(row: *const u8, row_len: usize, out: *mut u8, out_len: usize) -> u64;
        pub fn lvl_check_floor_beam(
            beam: *const u8,
            beam_len: usize,
            answer: *mut u8,
            answer_len: usize,
        ) -> u64;
        pub fn lvl_strengths(
            row: *const u8,
            row_len: usize,
            answer: *mut u8,
            answer_len: usize,
        ) -> u64;
        pub fn lvl_check_sag(
            row: *const u8,
            row_len: usize,
            sag: *const u8,
            sag_len: usize,
            answer: *mut u8,
            answer_len: usize,
        ) -> u64;
    }
}

/// `lvl_check_row`, for bytes of any length: 0 for pass, 1 for fail, or 1000 × refusal number + cell.
pub fn check_bytes(row: &[u8], answer: &mut [u8]) -> u64 {
    // Each slice is valid for its length, and a mutable slice overlaps no other.
    unsafe { c::lvl_check_row(row.as_ptr(), row.len(), answer.as_mut_ptr(), answer.len()) }
}

/// `lvl_pack_row`, for bytes of any length: the byte count, or 1000 × refusal number + cell.
pub fn pack_bytes(row: &[u8], out: &mut [u8]) -> u64 {
    // As above.
    unsafe { c::lvl_pack_row(row.as_ptr(), row.len(), out.as_mut_ptr(), out.len()) }
}

/// `lvl_check_floor_beam`, for bytes of any length: 0 for pass, 1 for fail, or 1000 × refusal number + cell.
pub fn check_floor_beam_bytes(beam: &[u8], answer: &mut [u8]) -> u64 {
    // As above.
    unsafe { c::lvl_check_floor_beam(beam.as_ptr(), beam.len(), answer.as_mut_ptr(), answer.len()) }
}

/// `lvl_strengths`, for bytes of any length: 0, or 1000 × refusal number + cell.
pub fn strengths_bytes(row: &[u8], answer: &mut [u8]) -> u64 {
    // As above.
    unsafe { c::lvl_strengths(row.as_ptr(), row.len(), answer.as_mut_ptr(), answer.len()) }
}

/// `lvl_check_sag`, for bytes of any length: 0 for pass, 1 for fail, or 1000 × refusal number + cell.
pub fn check_sag_bytes(row: &[u8], sag: &[u8], answer: &mut [u8]) -> u64 {
    // As above.
    unsafe {
        c::lvl_check_sag(
            row.as_ptr(),
            row.len(),
            sag.as_ptr(),
            sag.len(),
            answer.as_mut_ptr(),
            answer.len(),
        )
    }
}

/// The verdict on a row of cells, or why it is refused.
pub fn check(cells: &HostRow) -> Result<Verdict, Refusal> {
    let mut answer = [0; ANSWER_BYTES];
    let code = check_bytes(&host_bytes(cells), &mut answer);
    match Refusal::from_code(code) {
        Some(refusal) => Err(refusal),
        None => Ok(verdict(code == 0, &answer)),
    }
}

/// The verdict that a returned 0 or 1 and the answer's bytes stand for.
pub fn verdict(passes: bool, answer: &[u8; ANSWER_BYTES]) -> Verdict {
    verdict_at_start(passes, answer)
}

/// The verdict whose three floats an answer begins with.
fn verdict_at_start(passes: bool, answer: &[u8]) -> Verdict {
    Verdict {
        passes,
        utilisation: float_at(answer, 0) as u32,
        count: float_at(answer, 8) as u32,
        check: float_at(answer, 16) as u32,
    }
}

/// The float whose eight bytes start at a place.
fn float_at(bytes: &[u8], at: usize) -> f64 {
    f64::from_le_bytes(bytes[at..at + 8].try_into().expect("eight bytes"))
}

/// The packed bytes of a row of cells, or why it is refused.
pub fn pack(cells: &HostRow) -> Result<Vec<u8>, Refusal> {
    let mut out = [0; PACKED_BYTES];
    let code = pack_bytes(&host_bytes(cells), &mut out);
    match Refusal::from_code(code) {
        Some(refusal) => Err(refusal),
        None => Ok(out[..code as usize].to_vec()),
    }
}

/// The verdict on a floor beam, or why it is refused.
pub fn check_floor_beam(cells: &HostBeam) -> Result<BeamVerdict, Refusal> {
    let mut answer = [0; BEAM_ANSWER_BYTES];
    let code = check_floor_beam_bytes(&host_beam_bytes(cells), &mut answer);
    match Refusal::from_code(code) {
        Some(refusal) => Err(refusal),
        None => Ok(beam_verdict(code == 0, &answer)),
    }
}

/// The verdict on a floor beam that a returned 0 or 1 and the answer's bytes stand for.
pub fn beam_verdict(passes: bool, answer: &[u8; BEAM_ANSWER_BYTES]) -> BeamVerdict {
    BeamVerdict {
        verdict: verdict_at_start(passes, answer),
        regime: float_at(answer, 24) as u32,
        moment: float_at(answer, 32) as u64,
        shear: float_at(answer, 40) as u64,
    }
}

/// The design strengths of a row of cells, or why it is refused.
pub fn strengths(cells: &HostRow) -> Result<Strengths, Refusal> {
    let mut answer = [0; STRENGTHS_BYTES];
    let code = strengths_bytes(&host_bytes(cells), &mut answer);
    match Refusal::from_code(code) {
        Some(refusal) => Err(refusal),
        None => Ok(strengths_held(&answer)),
    }
}

/// The strengths that an answer's bytes stand for.
pub fn strengths_held(answer: &[u8; STRENGTHS_BYTES]) -> Strengths {
    Strengths {
        bending: strength_at(answer, 0),
        compression: strength_at(answer, 16),
        tension: strength_at(answer, 32),
        shear: strength_at(answer, 48),
    }
}

/// The strength whose two floats start at a place.
fn strength_at(answer: &[u8], at: usize) -> Strength {
    Strength {
        kpa: float_at(answer, at) as u32,
        remainder: float_at(answer, at + 8) as u32,
    }
}

/// The verdict on the sag of a row of kind 2, or why it is refused.
pub fn check_sag(cells: &HostRow, sag: &HostSag) -> Result<SagVerdict, Refusal> {
    let mut answer = [0; SAG_ANSWER_BYTES];
    let code = check_sag_bytes(&host_bytes(cells), &host_sag_bytes(sag), &mut answer);
    match Refusal::from_code(code) {
        Some(refusal) => Err(refusal),
        None => Ok(sag_verdict(code == 0, &answer)),
    }
}

/// The verdict on a sag that a returned 0 or 1 and the answer's bytes stand for.
pub fn sag_verdict(passes: bool, answer: &[u8; SAG_ANSWER_BYTES]) -> SagVerdict {
    SagVerdict {
        passes,
        utilisation: float_at(answer, 0) as u32,
        modulus: float_at(answer, 8) as u32,
        elastic_duration: float_at(answer, 16) as u32,
        moisture: float_at(answer, 24) as u32,
        design_modulus: float_at(answer, 32) as u32,
        limit_moment: float_at(answer, 40) as u64,
        shear_factor: float_at(answer, 48) as u32,
    }
}
