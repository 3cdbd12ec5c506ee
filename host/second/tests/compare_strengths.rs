//! The add-in's entry for design strengths against the second implementation, on the generated rows and on every
//! material there is.
//!
//! Every returned number and every lent byte must be equal, the rows that are refused must be those that the check
//! refuses, and every strength with its remainder must make up the undivided product.
#[path = "common/both.rs"]
mod both;
#[path = "common/counts.rs"]
mod counts;
#[path = "compare_strengths/exact.rs"]
mod exact;
#[path = "compare_strengths/materials.rs"]
mod materials;
#[path = "common/row_refusals.rs"]
mod row_refusals;
#[path = "compare_strengths/rows.rs"]
mod rows;
#[path = "compare_strengths/spread.rs"]
mod spread;

/// Slices that point nowhere are as good as any without bytes.
#[test]
fn the_entry_takes_empty_slices() {
    assert_eq!(lvl_addin::entry::strengths_bytes(&[], &mut []), 1000);
}
