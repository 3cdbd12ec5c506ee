//! Hosts run in whatever floating-point mode they or their libraries have set: the entries do not depend on it.
use crate::building::{printed, source, C99};

/// What traps is the six subnormals in each cell of seven rows, which three entries read, of six floor beams, and of nine rows with
/// a sag after each, with the denormal exception unmasked: the header says so. But a sag's three cells are read for six of the
/// nine only: the other three rows are refused before.
#[test]
fn every_mode_gives_the_same_answers() {
    assert_eq!(
        printed(&C99, "modes", &source("modes.c")),
        "1699200 calls, 0 differ, 0 not refused, 4356 trapped, flags but the denormal one: 0\n"
    );
}
