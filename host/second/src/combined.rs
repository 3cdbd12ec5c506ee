//! Check 11: an axial force together with a moment.
use crate::cells::Member;
use crate::rules::Rules;

/// p: the axial force against what the strut carries by φ', millionths, rounded up.
pub fn euler_share(axial: u64, capacity: u64) -> u64 {
    (1_000_000 * axial).div_ceil(capacity)
}

/// Md: the moment that the axial force has enlarged, rounded up; none where p reaches one.
pub fn enlarged_moment(moment: u64, euler_share: u64) -> Option<u64> {
    (euler_share < 1_000_000).then(|| (1_000_000 * moment).div_ceil(1_000_000 - euler_share))
}

/// The utilisation of a strut with a moment. A strut that its own axial force overturns has the greatest there is.
pub fn with_compression<R: Rules>(member: &Member) -> u64 {
    let axial_capacity =
        R::axial_capacity(member.width, member.height, R::design_compression(member));
    let phi = R::enlarging_phi(member.length_h, member.height);
    let p = R::euler_share(member.axial, R::buckling_capacity(axial_capacity, phi));
    match R::enlarged_moment(member.moment, p) {
        Some(moment) => sum::<R>(member, axial_capacity, moment),
        None => R::capped(u128::MAX),
    }
}

/// The utilisation of a tie with a moment, which the axial force does not enlarge.
pub fn with_tension<R: Rules>(member: &Member) -> u64 {
    let axial_capacity = R::axial_capacity(member.width, member.height, R::design_tension(member));
    sum::<R>(member, axial_capacity, member.moment)
}

fn sum<R: Rules>(member: &Member, axial_capacity: u64, moment: u64) -> u64 {
    let bending_capacity =
        R::bending_capacity(member.width, member.height, R::design_bending(member));
    R::added(
        R::utilisation(member.axial, axial_capacity),
        R::utilisation(moment, bending_capacity),
    )
}
