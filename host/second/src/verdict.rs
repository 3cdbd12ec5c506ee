//! The checks of a row, and the verdict that they give.
use crate::cells::{Joint, Kind, Member};
use crate::rules::Rules;
use lvl_addin::answer::Verdict;

/// The greatest utilisation that is ever given, millionths.
pub const GREATEST_UTILISATION: u64 = 9_999_999;

/// How one check comes out.
#[derive(Clone, Copy, Debug, PartialEq, Eq)]
pub enum Outcome {
    /// A yes-or-no check holds, and gives nothing to compare.
    Holds,
    /// A yes-or-no check fails.
    Fails,
    /// A strength check has this utilisation, millionths.
    Uses(u64),
}

/// The checks of a kind, in the order in which they are taken.
pub fn checks(kind: Kind) -> &'static [u32] {
    match kind {
        Kind::Tension => &[1, 2, 3, 4, 5, 6],
        Kind::Bending => &[7, 8],
        Kind::Compression => &[2, 3, 9, 10],
        Kind::CompressionWithBending => &[2, 3, 8, 9, 10, 11],
        Kind::TensionWithBending => &[2, 3, 8, 11],
    }
}

/// Whether a row has this check of its kind: three need a joint, and Table 16 limits row 4 across h only.
pub fn applies(check: u32, member: &Member) -> bool {
    match check {
        1 | 4 | 6 => member.joint.is_some(),
        3 => member.table_16_row != Some(4),
        _ => true,
    }
}

/// A force against a capacity, millionths, rounded up. An enlarged moment is too great for a product of 64 bits.
pub fn utilisation<R: Rules>(force: u64, capacity: u64) -> u64 {
    R::capped((1_000_000 * u128::from(force)).div_ceil(u128::from(capacity)))
}

/// A utilisation as it is given.
pub fn capped(utilisation: u128) -> u64 {
    utilisation.min(u128::from(GREATEST_UTILISATION)) as u64
}

/// The utilisation of two forces that act together.
pub fn added<R: Rules>(axial: u64, bending: u64) -> u64 {
    R::capped(u128::from(axial) + u128::from(bending))
}

/// Whether a check governs over the one that has governed so far: the more used, and of equals the lower number.
pub fn governs(check: u32, utilisation: u64, so_far: (u32, u64)) -> bool {
    utilisation > so_far.1 || utilisation == so_far.1 && check < so_far.0
}

/// Whether a row passes at the utilisation of its governing check.
pub fn passes(utilisation: u64) -> bool {
    utilisation <= 1_000_000
}

/// The count that a failed yes-or-no check gives: only the joint's length depends on the dowels.
pub fn count_at_failure(check: u32, count: u64) -> u64 {
    if check == 4 {
        count
    } else {
        0
    }
}

/// One check of a row.
pub fn outcome<R: Rules>(check: u32, member: &Member, count: u64) -> Outcome {
    match (check, &member.joint) {
        (1, Some(joint)) => yes_or_no(R::layout_holds(member.height, joint)),
        (2, _) => yes_or_no(slenderness::<R>(member, member.length_h, member.height)),
        (3, _) => yes_or_no(slenderness::<R>(member, member.length_b, member.width)),
        (4, Some(joint)) => yes_or_no(R::joint_length_holds(
            R::columns(count, joint.across),
            joint,
        )),
        (5, joint) => Outcome::Uses(R::net_tension(member, joint.as_ref())),
        (6, Some(joint)) => Outcome::Uses(R::side_pieces(member, joint)),
        (7, _) => Outcome::Uses(R::bending(member)),
        (8, _) => Outcome::Uses(R::shear(member)),
        (9, _) => Outcome::Uses(R::buckling_across_h(member)),
        (10, _) => Outcome::Uses(R::buckling_across_b(member)),
        (11, _) => Outcome::Uses(R::combined(member)),
        _ => Outcome::Holds,
    }
}

fn yes_or_no(holds: bool) -> Outcome {
    if holds {
        Outcome::Holds
    } else {
        Outcome::Fails
    }
}

fn slenderness<R: Rules>(member: &Member, length: u64, side: u64) -> bool {
    member
        .table_16_row
        .is_none_or(|row| R::slenderness_holds(length, side, R::slenderness_limit(row)))
}

/// Check 5.
pub fn net_tension<R: Rules>(member: &Member, joint: Option<&Joint>) -> u64 {
    let height = member.height - joint.map_or(0, R::holes);
    let capacity = R::axial_capacity(member.width, height, R::design_tension(member));
    R::utilisation(member.axial, capacity)
}

/// Check 6: both side pieces, with the holes of the middle one.
pub fn side_pieces<R: Rules>(member: &Member, joint: &Joint) -> u64 {
    let height = member.height - R::holes(joint);
    let capacity = R::axial_capacity(2 * joint.side_thickness, height, R::design_tension(member));
    R::utilisation(member.axial, capacity)
}

/// Check 7.
pub fn bending<R: Rules>(member: &Member) -> u64 {
    let capacity = R::bending_capacity(member.width, member.height, R::design_bending(member));
    R::utilisation(member.moment, capacity)
}

/// Check 8.
pub fn shear<R: Rules>(member: &Member) -> u64 {
    let capacity = R::shear_capacity(member.width, member.height, R::design_shear(member));
    R::utilisation(member.shear, capacity)
}

/// Checks 9 and 10, with the length and side of the one or the other.
pub fn buckling<R: Rules>(member: &Member, length: u64, side: u64) -> u64 {
    let axial_capacity =
        R::axial_capacity(member.width, member.height, R::design_compression(member));
    let capacity = R::buckling_capacity(axial_capacity, R::phi(length, side));
    R::utilisation(member.axial, capacity)
}

/// The verdict: the first yes-or-no check that fails, or else the check that governs.
pub fn judge<R: Rules>(member: &Member) -> Verdict {
    let count = R::count(member);
    let mut governing = (u32::MAX, 0);
    for &check in R::checks(member.kind) {
        if !R::applies(check, member) {
            continue;
        }
        match R::outcome(check, member, count) {
            Outcome::Holds => {}
            Outcome::Fails => {
                return Verdict {
                    passes: false,
                    check,
                    utilisation: 0,
                    count: R::count_at_failure(check, count) as u32,
                }
            }
            Outcome::Uses(utilisation) => {
                if R::governs(check, utilisation, governing) {
                    governing = (check, utilisation);
                }
            }
        }
    }
    let (check, utilisation) = governing;
    Verdict {
        passes: R::passes(utilisation),
        check,
        utilisation: utilisation as u32,
        count: count as u32,
    }
}
