//! What governs a kept schedule: of all rows held, each checked afresh, the one of the highest rank.
use crate::kept::{Held, Kept};
use crate::kept_rules::KeptRules;
use lvl_addin::answer::Verdict;

/// The row that governs.
#[derive(Clone, Copy, Debug, PartialEq, Eq)]
pub struct Governing {
    pub number: u32,
    pub verdict: Verdict,
}

/// The rank of a verdict, the lower first.
#[derive(Clone, Copy, Debug, PartialEq, Eq, PartialOrd, Ord)]
pub enum Rank {
    /// By the utilisation, millionths.
    Uses(u32),
    /// A yes-or-no fail gives no utilisation to compare: all of these are equal.
    YesOrNoFails,
}

/// Whether a verdict is a fail on layout, slenderness or joint length.
pub fn fails_yes_or_no(verdict: &Verdict) -> bool {
    !verdict.passes && (1..=4).contains(&verdict.check)
}

/// The rank of a verdict. Passes need none of their own: every fail by utilisation uses more than they do.
pub fn rank<R: KeptRules>(verdict: &Verdict) -> Rank {
    if R::fails_yes_or_no(verdict) {
        Rank::YesOrNoFails
    } else {
        Rank::Uses(verdict.utilisation)
    }
}

/// Whether a verdict ranks above another.
pub fn outranks<R: KeptRules>(one: &Verdict, other: &Verdict) -> bool {
    R::rank(one) > R::rank(other)
}

/// Whether a row governs before another: by rank, and of equals the one with the lower number.
pub fn governs_before<R: KeptRules>(one: &Governing, other: &Governing) -> bool {
    R::outranks(&one.verdict, &other.verdict)
        || !R::outranks(&other.verdict, &one.verdict) && one.number < other.number
}

/// Checks a row that is held.
pub fn checked_afresh<R: KeptRules>(held: &Held) -> Governing {
    Governing {
        number: held.number,
        verdict: R::check_row(&held.cells).expect("a row that is held is judged"),
    }
}

/// The row that governs; none where none is held.
pub fn governing<R: KeptRules>(kept: &Kept) -> Option<Governing> {
    let rows = kept.rows.iter().map(R::checked_afresh);
    rows.reduce(|so_far, one| {
        if R::governs_before(&one, &so_far) {
            one
        } else {
            so_far
        }
    })
}
