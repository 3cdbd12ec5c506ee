//! The dowel joint: layout, dowels needed, length; the dowel's bending as request 5 has it.
use crate::cells::{Joint, Member};
use crate::rules::Rules;

/// Check 1: the dowels of a column, with their spacings and edge distances, fit into the height.
pub fn layout_holds(height: u64, joint: &Joint) -> bool {
    2 * height >= (7 * joint.across + 5) * joint.diameter
}

/// The height that the holes of a column take.
pub fn holes(joint: &Joint) -> u64 {
    joint.across * joint.diameter
}

/// The term of crushing in the middle piece, in hundredths of N as every term.
pub fn middle_term(width: u64, joint: &Joint) -> u64 {
    joint.kc * width * joint.diameter
}

/// The term of crushing in the side piece.
pub fn side_term(joint: &Joint) -> u64 {
    joint.ka * joint.side_thickness * joint.diameter
}

/// The term of the dowel's own bending, which the piece beside it helps up to a limit.
pub fn dowel_term(joint: &Joint) -> u64 {
    let (a, d) = (joint.side_thickness, joint.diameter);
    (joint.kb * d * d + joint.ke * a * a).min(joint.km * d * d)
}

/// s: the square root of t × w × o in millionths, rounded down. Bending of the dowel takes it in place of the product.
pub fn factor_root(factor_product: u64) -> u64 {
    (100_000 * factor_product).isqrt()
}

/// What a term of crushing carries, mN, rounded down.
pub fn crushing_capacity(term: u64, factor_product: u64) -> u64 {
    term * factor_product / 1_000_000
}

/// What the term of the dowel's bending carries, mN, rounded down.
pub fn dowel_bending_capacity(term: u64, factor_root: u64) -> u64 {
    term * factor_root / 100_000
}

/// What one dowel carries in one shear plane before the middle piece is crushed, before the side piece is, and before
/// it bends, mN.
pub fn mode_capacities<R: Rules>(member: &Member, joint: &Joint) -> [u64; 3] {
    let product = R::factor_product(&member.factors);
    let root = R::factor_root(product);
    [
        R::crushing_capacity(R::middle_term(member.width, joint), product),
        R::crushing_capacity(R::side_term(joint), product),
        R::dowel_bending_capacity(R::dowel_term(joint), root),
    ]
}

/// T: what one dowel carries in one shear plane, mN.
pub fn dowel_capacity<R: Rules>(member: &Member, joint: &Joint) -> u64 {
    let [middle, side, dowel] = R::mode_capacities(member, joint);
    middle.min(side).min(dowel)
}

/// The dowels that carry the axial force in two shear planes each.
pub fn dowel_count(axial: u64, dowel_capacity: u64) -> u64 {
    (1000 * axial).div_ceil(2 * dowel_capacity)
}

/// The columns that hold the dowels.
pub fn columns(count: u64, across: u64) -> u64 {
    count.div_ceil(across)
}

/// Check 4: the columns, with their spacings and end distances, fit into the length available.
pub fn joint_length_holds(columns: u64, joint: &Joint) -> bool {
    7 * joint.diameter * (columns + 1) <= joint.length
}

/// The dowels of a member's joint, 0 without a joint.
pub fn count<R: Rules>(member: &Member) -> u64 {
    member.joint.as_ref().map_or(0, |joint| {
        R::dowel_count(member.axial, R::dowel_capacity(member, joint))
    })
}
