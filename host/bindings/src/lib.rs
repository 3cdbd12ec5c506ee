//! The add-in for Rust hosts: bindings over its C entries.
//!
//! [`entry::check`] judges a row of cells, [`entry::strengths`] gives the design strengths that its checks use with what
//! rounding dropped, [`entry::pack`] packs it, [`entry::check_sag`] judges the sag of a row of kind 2, and
//! [`entry::check_floor_beam`] judges a floor beam by its loads and span.

pub mod answer;
pub mod entry;
pub mod floor_beam;
pub mod row;
pub mod sag;
pub mod strengths;
