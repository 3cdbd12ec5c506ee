//! Wrong copies of slenderness, buckling and the combined check.
use lvl_second::{Kind, Member, Outcome, Paper};

/// A member with its effective lengths exchanged.
fn lengths_exchanged(member: &Member) -> Member {
    Member {
        length_h: member.length_b,
        length_b: member.length_h,
        ..*member
    }
}

wrong_copies! { Rules, Checking:
    TurningPointAt69 {
        fn is_stocky(length: u64, side: u64) -> bool {
            Paper::slenderness_holds(length, side, 69)
        }
    }
    TurningPointAt71 {
        fn is_stocky(length: u64, side: u64) -> bool {
            Paper::slenderness_holds(length, side, 71)
        }
    }
    StockyTermDown {
        fn stocky_phi(length: u64, side: u64) -> u64 {
            1_000_000 - 960 * length * length / (side * side)
        }
    }
    StockyTermOf970 {
        fn stocky_phi(length: u64, side: u64) -> u64 {
            1_000_000 - (970 * length * length).div_ceil(side * side)
        }
    }
    SlenderPhiUp {
        fn slender_phi(length: u64, side: u64) -> u64 {
            (250_000_000 * side * side).div_ceil(length * length)
        }
    }
    FirstFormAtEverySlenderness {
        fn phi(length: u64, side: u64) -> u64 {
            1_000_000_u64.saturating_sub((960 * length * length).div_ceil(side * side)).max(1)
        }
    }
    SecondFormAtEverySlenderness {
        fn phi(length: u64, side: u64) -> u64 {
            Paper::slender_phi(length, side)
        }
    }
    LongerStrutWeaker {
        fn phi(length: u64, side: u64) -> u64 {
            let most = if Paper::is_stocky(length, side) { 1_000_000 } else { 608_000 };
            Paper::phi(length, side).min(most)
        }
    }
    BucklingCapacityUp {
        fn buckling_capacity(axial_capacity: u64, phi: u64) -> u64 {
            (axial_capacity * phi).div_ceil(1_000_000)
        }
    }
    BucklingCapacityToNearest {
        fn buckling_capacity(axial_capacity: u64, phi: u64) -> u64 {
            (axial_capacity * phi + 500_000) / 1_000_000
        }
    }
    Check9WithTheOtherLength {
        fn buckling_across_h(member: &Member) -> u64 {
            Paper::buckling_across_h(&lengths_exchanged(member))
        }
    }
    Check10WithTheOtherLength {
        fn buckling_across_b(member: &Member) -> u64 {
            Paper::buckling_across_b(&lengths_exchanged(member))
        }
    }
    SlendernessWithTheOtherLength {
        fn outcome(check: u32, member: &Member, count: u64) -> Outcome {
            let exchanged = lengths_exchanged(member);
            Paper::outcome(check, if check <= 3 { &exchanged } else { member }, count)
        }
    }
    SlendernessWithTenForTwelve {
        fn slenderness_holds(length: u64, side: u64, limit: u64) -> bool {
            10 * length * length <= limit * limit * side * side
        }
    }
    Check9PhiInCheck11 {
        fn enlarging_phi(length: u64, side: u64) -> u64 {
            Paper::phi(length, side)
        }
    }
    EnlargingPhiAtMostOne {
        fn enlarging_phi(length: u64, side: u64) -> u64 {
            Paper::enlarging_phi(length, side).min(1_000_000)
        }
    }
    EnlargedAcrossB {
        fn combined(member: &Member) -> u64 {
            Paper::combined(&lengths_exchanged(member))
        }
    }
    EulerShareDown {
        fn euler_share(axial: u64, capacity: u64) -> u64 {
            1_000_000 * axial / capacity
        }
    }
    EnlargedMomentDown {
        fn enlarged_moment(moment: u64, euler_share: u64) -> Option<u64> {
            (euler_share < 1_000_000).then(|| 1_000_000 * moment / (1_000_000 - euler_share))
        }
    }
    EulerShareOfOneNotTheEnd {
        fn enlarged_moment(moment: u64, euler_share: u64) -> Option<u64> {
            let share = if euler_share == 1_000_000 { 999_999 } else { euler_share };
            Paper::enlarged_moment(moment, share)
        }
    }
    EulerShareJustBelowOneTheEnd {
        fn enlarged_moment(moment: u64, euler_share: u64) -> Option<u64> {
            Paper::enlarged_moment(moment, euler_share + 1).and(Paper::enlarged_moment(moment, euler_share))
        }
    }
    EulerShareNeverTheEnd {
        fn enlarged_moment(moment: u64, euler_share: u64) -> Option<u64> {
            Paper::enlarged_moment(moment, euler_share.min(999_999))
        }
    }
    MomentNotEnlarged {
        fn enlarged_moment(moment: u64, euler_share: u64) -> Option<u64> {
            (euler_share < 1_000_000).then_some(moment)
        }
    }
    TieTakenForStrut {
        fn combined(member: &Member) -> u64 {
            Paper::combined(&Member { kind: Kind::CompressionWithBending, ..*member })
        }
    }
    StrutTakenForTie {
        fn combined(member: &Member) -> u64 {
            Paper::combined(&Member { kind: Kind::TensionWithBending, ..*member })
        }
    }
    GreaterInPlaceOfSum {
        fn added(axial: u64, bending: u64) -> u64 {
            axial.max(bending)
        }
    }
    AxialPartLeftOut {
        fn added(_axial: u64, bending: u64) -> u64 {
            bending
        }
    }
    SumOfUtilisationsNotCapped {
        fn added(axial: u64, bending: u64) -> u64 {
            axial + bending
        }
    }
}
