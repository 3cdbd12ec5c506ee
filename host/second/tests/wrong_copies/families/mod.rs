//! Wrong copies by the dozen: one for each figure of a table, end of a range, code, cell, check and stress.
//!
//! A family is one type, whose slip is set before it is used. The entry that has to show its copies is chosen with it.

mod cells;
mod checks;
mod figures;
mod ranks;
mod sag_answers;
mod sags;
mod stresses;

use crate::evidence::{Checking, EveryRule, Flooring, GivingStrengths, Sagging, Shows, Wrong};
use lvl_second::Kind;
use std::cell::Cell;

thread_local! {
    /// Where the copy in use is wrong (two numbers, whose meaning is the family's), and by how much.
    static SLIP: Cell<(u64, u64, i64)> = const { Cell::new((0, 0, 0)) };
}

/// A copy with this slip that an entry has to show.
fn slip<E: Shows, R: EveryRule>(name: String, at: u64, and: u64, by: i64) -> Wrong {
    Wrong::new(name, move |evidence| {
        SLIP.set((at, and, by));
        E::shows::<R>(evidence)
    })
}

/// The right figure, moved if the slip is here.
fn moved(right: u64, at: u64, and: u64) -> u64 {
    match SLIP.get() {
        (slip_at, slip_and, by) if (slip_at, slip_and) == (at, and) => {
            right.wrapping_add_signed(by)
        }
        _ => right,
    }
}

fn kind_code(kind: Kind) -> u64 {
    1 + kind as u64
}

/// Families of document 01's rules, which keep those of the requests.
macro_rules! keep_the_requests {
    ($($family:ident),* $(,)?) => {
        $(keep_rules! { $family [FloorRules StrengthRules SagRules KeptRules] })*
    };
}
use keep_the_requests;

/// Families of the sags' rules, which keep all others.
macro_rules! keep_all_but_the_sags {
    ($($family:ident),* $(,)?) => {
        $(keep_rules! { $family [Rules FloorRules StrengthRules KeptRules] })*
    };
}
use keep_all_but_the_sags;

/// Families of the kept schedule's rules, which keep all others.
macro_rules! keep_all_but_the_schedule {
    ($($family:ident),* $(,)?) => {
        $(keep_rules! { $family by_the_paper })*
    };
}
use keep_all_but_the_schedule;

/// Those that rows have to show.
pub fn copies() -> Vec<Wrong> {
    let mut copies = figures::of_strengths::<Checking>();
    copies.extend(figures::of_slenderness());
    copies.extend(cells::copies_shown_by::<Checking>());
    copies.extend(checks::copies());
    copies
}

/// Those that floor beams have to show as well.
pub fn on_beams() -> Vec<Wrong> {
    let mut copies = figures::of_beams::<Flooring>();
    copies.extend(cells::of_beams::<Flooring>());
    copies
}

/// Those that design strengths have to show as well.
pub fn on_strengths() -> Vec<Wrong> {
    let mut copies = figures::of_strengths::<GivingStrengths>();
    copies.extend(cells::copies_shown_by::<GivingStrengths>());
    copies
}

/// Those of the strengths' own rules.
pub fn of_stresses() -> Vec<Wrong> {
    stresses::copies()
}

/// Those that sags have to show as well.
pub fn on_sags() -> Vec<Wrong> {
    let mut copies = figures::of_sags::<Sagging>();
    copies.extend(cells::copies_shown_by::<Sagging>());
    copies
}

/// Those of the sags' own rules.
pub fn of_sags() -> Vec<Wrong> {
    let mut copies = sags::copies();
    copies.extend(sag_answers::copies());
    copies
}

/// Those of the kept schedule's own rules.
pub fn of_schedules() -> Vec<Wrong> {
    ranks::copies()
}
