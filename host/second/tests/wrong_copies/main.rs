//! The test of the tests: copies of the rules that are wrong in one rule each, all of which must be seen.
//!
//! A copy is seen if it differs from the add-in's entries on rows, floor beams and sags of the same sequences that
//! `compare`, `compare_strengths`, `compare_beams` and `compare_sags` read, or, in the rules of unpacking and of the program `schedule`, from the
//! right text, to which `schedule` holds the program, or, in the rules of the kept schedule, from the right lines of the
//! calls to which `compare_kept` holds the program `replay`. A copy that panics where the entry answers is seen as well.
//!
//! Left out: slenderness with < in place of ≤, at the limits and at 70. It is the same rule, since 12 L² = n² s²
//! has no solution in whole numbers above 0 (12 is no square).

#[macro_use]
mod evidence;

mod acceptance;
mod answers;
mod buckling;
mod families;
mod floor;
mod host;
mod joint;
mod kept;
mod narrow;
mod packed;
mod reading;
mod sag;
mod schedule;
mod strength;
mod strengths;
mod verdict;

use evidence::{
    Checking, Evidence, Flooring, GivingStrengths, Keeping, Packing, Sagging, Scheduling, Shows,
    SpendingNumbers, Wrong,
};
use std::panic::{catch_unwind, set_hook, take_hook, AssertUnwindSafe};

/// The least numbers of wrong copies of the row's rules, of the floor beam's, of the strengths' and the sags' own and of
/// those that they share with the row, and of the kept schedule's, lest some be lost.
const LEAST_OF_ROW: usize = 755;
const LEAST_OF_BEAM: usize = 100;
const LEAST_OF_STRENGTHS: usize = 180;
const LEAST_SHARED_BY_STRENGTHS: usize = 460;
const LEAST_OF_SAGS: usize = 470;
const LEAST_SHARED_BY_SAGS: usize = 410;
const LEAST_OF_SCHEDULES: usize = 290;

fn of_the_row() -> Vec<Wrong> {
    let mut copies = families::copies();
    for more in [
        strength::copies(),
        buckling::copies(),
        joint::copies(),
        verdict::copies(),
        acceptance::copies(),
        narrow::copies(),
        reading::copies(),
        host::copies(),
        packed::copies(),
        schedule::copies(),
    ] {
        copies.extend(more);
    }
    copies
}

#[test]
fn every_wrong_copy_is_seen() {
    let evidence = Evidence::gather();
    assert_seen("wrong copies", &of_the_row(), LEAST_OF_ROW, &evidence);
    assert_seen(
        "wrong copies of the floor beam",
        &floor::copies(),
        LEAST_OF_BEAM,
        &evidence,
    );
    assert_seen(
        "wrong copies of strengths with remainders",
        &strengths::own_copies(),
        LEAST_OF_STRENGTHS,
        &evidence,
    );
    assert_seen(
        "wrong copies of the row's rules that strengths show",
        &strengths::shared_copies(),
        LEAST_SHARED_BY_STRENGTHS,
        &evidence,
    );
    assert_seen(
        "wrong copies of the sag check",
        &sag::own_copies(),
        LEAST_OF_SAGS,
        &evidence,
    );
    assert_seen(
        "wrong copies of the row's rules that sags show",
        &sag::shared_copies(),
        LEAST_SHARED_BY_SAGS,
        &evidence,
    );
    assert_seen(
        "wrong copies of the kept schedule",
        &kept::copies(),
        LEAST_OF_SCHEDULES,
        &evidence,
    );
}

fn assert_seen(what: &str, copies: &[Wrong], least: usize, evidence: &Evidence) {
    let hook = take_hook();
    set_hook(Box::new(|_| {}));
    let mut panics = 0;
    let mut unseen = Vec::new();
    for copy in copies {
        match catch_unwind(AssertUnwindSafe(|| (copy.seen)(evidence))) {
            Ok(true) => {}
            Ok(false) => unseen.push(copy.name.as_str()),
            Err(_) => panics += 1,
        }
    }
    set_hook(hook);
    println!("{} {what}, {panics} of them seen by a panic", copies.len());
    assert!(unseen.is_empty(), "{what} that nothing shows: {unseen:?}");
    assert!(copies.len() >= least, "only {} {what}", copies.len());
}

/// The right rules must not be seen, or seeing would mean nothing.
#[test]
fn the_right_rules_are_not_seen_as_wrong() {
    use lvl_second::Paper;
    let evidence = Evidence::gather();
    assert!(!Checking::shows::<Paper>(&evidence));
    assert!(!Packing::shows::<Paper>(&evidence));
    assert!(!GivingStrengths::shows::<Paper>(&evidence));
    assert!(!Flooring::shows::<Paper>(&evidence));
    assert!(!Sagging::shows::<Paper>(&evidence));
    assert!(!Scheduling::shows::<Paper>(&evidence));
    assert!(!Keeping::shows::<Paper>(&evidence));
    assert!(!SpendingNumbers::shows::<Paper>(&evidence));
}
