//! Wrong copies of the dowel joint.
use lvl_second::{Factors, Joint, Member, Paper, Rules};

/// A term or coefficient that no other is as great as, and that takes every factor within 64 bits.
const BEYOND_ALL: u64 = 1 << 30;

/// The terms of the three modes of failure.
fn terms(member: &Member, joint: &Joint) -> [u64; 3] {
    [
        Paper::middle_term(member.width, joint),
        Paper::side_term(joint),
        Paper::dowel_term(joint),
    ]
}

/// What a term carries by the whole product of the factors.
fn by_the_product(term: u64, member: &Member) -> u64 {
    Paper::crushing_capacity(term, Paper::factor_product(&member.factors))
}

/// What a term carries by the root of the product.
fn by_the_root(term: u64, member: &Member) -> u64 {
    let product = Paper::factor_product(&member.factors);
    Paper::dowel_bending_capacity(term, Paper::factor_root(product))
}

/// The modes' capacities where the dowel's bending takes the root of some of the factors, and one whole.
fn bent_by(
    member: &Member,
    joint: &Joint,
    under_the_root: &Factors,
    whole: u64,
    one: u64,
) -> [u64; 3] {
    let [middle, side, _] = Paper::mode_capacities(member, joint);
    let root = Paper::factor_root(Paper::factor_product(under_the_root)) * whole / one;
    let dowel = Paper::dowel_bending_capacity(Paper::dowel_term(joint), root);
    [middle, side, dowel]
}

wrong_copies! { Rules, Checking:
    LayoutStrict {
        fn layout_holds(height: u64, joint: &Joint) -> bool {
            2 * height > (7 * joint.across + 5) * joint.diameter
        }
    }
    LayoutWithOneSpacingLess {
        fn layout_holds(height: u64, joint: &Joint) -> bool {
            2 * height >= (7 * joint.across - 2) * joint.diameter
        }
    }
    LayoutWithNarrowEdges {
        fn layout_holds(height: u64, joint: &Joint) -> bool {
            2 * height >= (7 * joint.across + 4) * joint.diameter
        }
    }
    LayoutWithWideEdges {
        fn layout_holds(height: u64, joint: &Joint) -> bool {
            2 * height >= (7 * joint.across + 6) * joint.diameter
        }
    }
    MiddlePieceNotCrushed {
        fn middle_term(_width: u64, _joint: &Joint) -> u64 {
            BEYOND_ALL
        }
    }
    SidePieceNotCrushed {
        fn side_term(_joint: &Joint) -> u64 {
            BEYOND_ALL
        }
    }
    DowelNotBent {
        fn dowel_term(_joint: &Joint) -> u64 {
            BEYOND_ALL
        }
    }
    DowelBendingNotLimited {
        fn dowel_term(joint: &Joint) -> u64 {
            Paper::dowel_term(&Joint { km: BEYOND_ALL, ..*joint })
        }
    }
    RopeTermLeftOut {
        fn dowel_term(joint: &Joint) -> u64 {
            Paper::dowel_term(&Joint { ke: 0, ..*joint })
        }
    }
    CoefficientsExchanged {
        fn mode_capacities(member: &Member, joint: &Joint) -> [u64; 3] {
            Paper::mode_capacities(member, &Joint { kc: joint.ka, ka: joint.kc, ..*joint })
        }
    }
    CrushingUp {
        fn crushing_capacity(term: u64, factor_product: u64) -> u64 {
            (term * factor_product).div_ceil(1_000_000)
        }
    }
    CrushingDividedFirst {
        fn crushing_capacity(term: u64, factor_product: u64) -> u64 {
            term / 100 * factor_product / 10_000
        }
    }
    CrushingWithoutFactors {
        fn crushing_capacity(term: u64, _factor_product: u64) -> u64 {
            term * 10
        }
    }
    DowelBendingUp {
        fn dowel_bending_capacity(term: u64, factor_root: u64) -> u64 {
            (term * factor_root).div_ceil(100_000)
        }
    }
    DowelBendingDividedFirst {
        fn dowel_bending_capacity(term: u64, factor_root: u64) -> u64 {
            term / 100 * factor_root / 1000
        }
    }
    DowelBendingOfRootDividedFirst {
        fn dowel_bending_capacity(term: u64, factor_root: u64) -> u64 {
            term * (factor_root / 100) / 1000
        }
    }
    DowelBendingWithoutFactors {
        fn dowel_bending_capacity(term: u64, _factor_root: u64) -> u64 {
            term * 10
        }
    }
    /// The rule of the editions before.
    DowelBendingByTheWholeProduct {
        fn mode_capacities(member: &Member, joint: &Joint) -> [u64; 3] {
            let [middle, side, _] = Paper::mode_capacities(member, joint);
            [middle, side, by_the_product(Paper::dowel_term(joint), member)]
        }
    }
    MiddlePieceByTheRoot {
        fn mode_capacities(member: &Member, joint: &Joint) -> [u64; 3] {
            let [_, side, dowel] = Paper::mode_capacities(member, joint);
            [by_the_root(Paper::middle_term(member.width, joint), member), side, dowel]
        }
    }
    SidePieceByTheRoot {
        fn mode_capacities(member: &Member, joint: &Joint) -> [u64; 3] {
            let [middle, _, dowel] = Paper::mode_capacities(member, joint);
            [middle, by_the_root(Paper::side_term(joint), member), dowel]
        }
    }
    EveryModeByTheRoot {
        fn mode_capacities(member: &Member, joint: &Joint) -> [u64; 3] {
            terms(member, joint).map(|term| by_the_root(term, member))
        }
    }
    /// As if the limit on bending were no part of its term.
    LimitOfBendingByTheWholeProduct {
        fn mode_capacities(member: &Member, joint: &Joint) -> [u64; 3] {
            let [middle, side, _] = Paper::mode_capacities(member, joint);
            let unlimited = Paper::dowel_term(&Joint { km: BEYOND_ALL, ..*joint });
            let limit = by_the_product(joint.km * joint.diameter * joint.diameter, member);
            [middle, side, by_the_root(unlimited, member).min(limit)]
        }
    }
    RootOneLess {
        fn factor_root(factor_product: u64) -> u64 {
            Paper::factor_root(factor_product) - 1
        }
    }
    RootOneMore {
        fn factor_root(factor_product: u64) -> u64 {
            Paper::factor_root(factor_product) + 1
        }
    }
    RootUp {
        fn factor_root(factor_product: u64) -> u64 {
            let root = Paper::factor_root(factor_product);
            root + u64::from(root * root < 100_000 * factor_product)
        }
    }
    RootToTheNearest {
        fn factor_root(factor_product: u64) -> u64 {
            let root = Paper::factor_root(factor_product);
            root + u64::from(root * root + root < 100_000 * factor_product)
        }
    }
    /// With < in place of ≤: wrong where the root is whole, as for a product of one.
    RootBelowWhole {
        fn factor_root(factor_product: u64) -> u64 {
            (100_000 * factor_product - 1).isqrt()
        }
    }
    RootWithoutTheHundredThousand {
        fn factor_root(factor_product: u64) -> u64 {
            factor_product.isqrt()
        }
    }
    RootInThousandths {
        fn factor_root(factor_product: u64) -> u64 {
            (factor_product / 10).isqrt() * 1000
        }
    }
    RootAtMostOne {
        fn factor_root(factor_product: u64) -> u64 {
            Paper::factor_root(factor_product).min(1_000_000)
        }
    }
    /// The root of the whole square, which rounds once and not twice.
    RootAfterTheTerm {
        fn mode_capacities(member: &Member, joint: &Joint) -> [u64; 3] {
            let [middle, side, _] = Paper::mode_capacities(member, joint);
            let term = u128::from(Paper::dowel_term(joint));
            let product = u128::from(Paper::factor_product(&member.factors));
            let root = (term * term * product * 100_000).isqrt();
            [middle, side, (root / 100_000) as u64]
        }
    }
    DurationWithoutRoot {
        fn mode_capacities(member: &Member, joint: &Joint) -> [u64; 3] {
            let others = Factors { duration: 100, ..member.factors };
            bent_by(member, joint, &others, member.factors.duration, 100)
        }
    }
    MoistureWithoutRoot {
        fn mode_capacities(member: &Member, joint: &Joint) -> [u64; 3] {
            let others = Factors { moisture: 100, ..member.factors };
            bent_by(member, joint, &others, member.factors.moisture, 100)
        }
    }
    OfficeFactorWithoutRoot {
        fn mode_capacities(member: &Member, joint: &Joint) -> [u64; 3] {
            let others = Factors { office: 1000, ..member.factors };
            bent_by(member, joint, &others, member.factors.office, 1000)
        }
    }
    ModeOfTheLeastTerm {
        fn dowel_capacity(member: &Member, joint: &Joint) -> u64 {
            let terms = terms(member, joint);
            let least = (0..3).min_by_key(|&mode| terms[mode]);
            Paper::mode_capacities(member, joint)[least.unwrap_or(0)]
        }
    }
    GreatestMode {
        fn dowel_capacity(member: &Member, joint: &Joint) -> u64 {
            let [middle, side, dowel] = Paper::mode_capacities(member, joint);
            middle.max(side).max(dowel)
        }
    }
    /// Of the pieces the stronger.
    WeakerPieceForgotten {
        fn dowel_capacity(member: &Member, joint: &Joint) -> u64 {
            let [middle, side, dowel] = Paper::mode_capacities(member, joint);
            middle.max(side).min(dowel)
        }
    }
    DowelCapacityInNewtons {
        fn dowel_capacity(member: &Member, joint: &Joint) -> u64 {
            Paper::dowel_capacity(member, joint) / 1000 * 1000
        }
    }
    OneShearPlane {
        fn dowel_count(axial: u64, dowel_capacity: u64) -> u64 {
            (1000 * axial).div_ceil(dowel_capacity)
        }
    }
    CountDown {
        fn dowel_count(axial: u64, dowel_capacity: u64) -> u64 {
            1000 * axial / (2 * dowel_capacity)
        }
    }
    CountOneMore {
        fn dowel_count(axial: u64, dowel_capacity: u64) -> u64 {
            1000 * axial / (2 * dowel_capacity) + 1
        }
    }
    CountAtLeastTwo {
        fn dowel_count(axial: u64, dowel_capacity: u64) -> u64 {
            Paper::dowel_count(axial, dowel_capacity).max(2)
        }
    }
    CountOfFullColumns {
        fn count(member: &Member) -> u64 {
            let across = member.joint.map_or(1, |joint| joint.across);
            Paper::count(member).next_multiple_of(across)
        }
    }
    CountWithoutJoint {
        fn count(member: &Member) -> u64 {
            Paper::count(member).max(1)
        }
    }
    InventedCount {
        fn count(member: &Member) -> u64 {
            member.joint.map_or(0, |joint| joint.across)
        }
    }
    ColumnsDown {
        fn columns(count: u64, across: u64) -> u64 {
            count / across
        }
    }
    ColumnsOneMore {
        fn columns(count: u64, across: u64) -> u64 {
            count / across + 1
        }
    }
    JointLengthStrict {
        fn joint_length_holds(columns: u64, joint: &Joint) -> bool {
            7 * joint.diameter * (columns + 1) < joint.length
        }
    }
    JointLengthWithoutEnd {
        fn joint_length_holds(columns: u64, joint: &Joint) -> bool {
            7 * joint.diameter * columns <= joint.length
        }
    }
    JointLengthWithSpacingOfSix {
        fn joint_length_holds(columns: u64, joint: &Joint) -> bool {
            6 * joint.diameter * (columns + 1) <= joint.length
        }
    }
    HolesForgottenInMiddlePiece {
        fn net_tension(member: &Member, _joint: Option<&Joint>) -> u64 {
            Paper::net_tension(member, None)
        }
    }
    HolesForgottenInSidePieces {
        fn side_pieces(member: &Member, joint: &Joint) -> u64 {
            Paper::side_pieces(member, &Joint { across: 0, ..*joint })
        }
    }
    OneHole {
        fn holes(joint: &Joint) -> u64 {
            joint.diameter
        }
    }
    OneSidePiece {
        fn side_pieces(member: &Member, joint: &Joint) -> u64 {
            Paper::net_tension(&Member { width: joint.side_thickness, ..*member }, Some(joint))
        }
    }
    MiddlePieceOfSideThickness {
        fn net_tension(member: &Member, joint: Option<&Joint>) -> u64 {
            let width = joint.map_or(member.width, |joint| joint.side_thickness);
            Paper::net_tension(&Member { width, ..*member }, joint)
        }
    }
}
