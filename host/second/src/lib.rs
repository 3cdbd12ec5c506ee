//! A second implementation of the whole base, of the floor beam, of strengths with remainders, of the sag check and of
//! the kept schedule, written from document 01 and the requests alone. For tests: no host depends on it.
//!
//! The add-in is compared with it, row by row, beam by beam, sag by sag and call by call, and its speed is held to it.
//! Every rule of document 01 is one method of [`Rules`], every rule of the floor-beam request one of [`FloorRules`], of
//! the request for strengths one of [`StrengthRules`], of the request for sags one of [`SagRules`] and of the request for
//! a kept schedule one of [`KeptRules`]: [`Paper`] keeps them all, and the wrong copies in the tests change one each.
//!
//! Beside it stand the rows, beams, sags and calls to compare on ([`rows`], [`beams`], [`sags`], [`calls`]) and what is
//! demanded of the verdicts in exact numbers ([`demand3`], [`floor_demand`], [`sag_demand`], [`exact`]), which shares
//! nothing with it.

pub mod beams;
pub mod calls;
pub mod demand3;
pub mod exact;
pub mod floor_demand;
pub mod rows;
pub mod sag_demand;
pub mod sags;

mod acceptance;
mod buckling;
pub mod cells;
mod combined;
pub mod exact_strength;
pub mod floor_beam;
mod floor_host;
mod floor_rules;
mod host;
mod joint;
pub mod kept;
pub mod kept_governing;
mod kept_rules;
pub mod packing;
mod reading;
pub mod replay;
mod rules;
pub mod sag;
mod sag_host;
mod sag_rules;
mod schedule;
mod strength;
mod strength_host;
mod strength_rules;
mod tables;
mod verdict;

pub use cells::{Cells, Codes, Factors, Grade, Joint, Kind, Member};
pub use floor_host::BeamRead;
pub use floor_rules::FloorRules;
pub use kept::{Answered, Call, Given, Held, Kept};
pub use kept_governing::{Governing, Rank};
pub use kept_rules::KeptRules;
pub use rules::Rules;
pub use sag_rules::SagRules;
pub use schedule::INPUT_BYTES;
pub use strength_rules::StrengthRules;
pub use verdict::Outcome;

/// The rules as document 01 and the requests have them.
pub struct Paper;

impl Rules for Paper {}

impl FloorRules for Paper {}

impl StrengthRules for Paper {}

impl SagRules for Paper {}

impl KeptRules for Paper {}

/// The host's entry for checking: the returned number, and the answer in the lent bytes.
pub fn check_bytes(row: &[u8], answer: &mut [u8]) -> u64 {
    Paper::check_bytes(row, answer)
}

/// The host's entry for packing: the returned number, and the packed row in the lent bytes.
pub fn pack_bytes(row: &[u8], out: &mut [u8]) -> u64 {
    Paper::pack_bytes(row, out)
}

/// The host's entry for a floor beam: the returned number, and the answer in the lent bytes.
pub fn check_floor_beam_bytes(beam: &[u8], answer: &mut [u8]) -> u64 {
    Paper::check_beam_bytes(beam, answer)
}

/// The host's entry for design strengths: the returned number, and the strengths with their remainders in the lent
/// bytes.
pub fn strengths_bytes(row: &[u8], answer: &mut [u8]) -> u64 {
    Paper::strengths_bytes(row, answer)
}

/// The host's entry for the sag of a row: the returned number, and the answer in the lent bytes.
pub fn check_sag_bytes(row: &[u8], sag: &[u8], answer: &mut [u8]) -> u64 {
    Paper::check_sag_bytes(row, sag, answer)
}
