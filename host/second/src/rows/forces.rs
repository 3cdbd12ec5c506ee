//! The forces of a judged row, and the joint's length: where the verdict turns, and one to either side.
use super::judged::into_range;
use super::random::Random;
use crate::cells::*;
use crate::{Paper, Rules};
use std::ops::RangeInclusive;

/// Fills the forces of a row whose other cells are filled and in range.
pub fn fill(random: &mut Random, kind: u64, cells: &mut Cells) {
    for number in [AXIAL, MOMENT, SHEAR] {
        if carries(kind, number) {
            cells[number - 1] = Some(1);
        }
    }
    by_share(random, cells);
    match random.below(8) {
        0 => beyond_the_cap(random, cells),
        1 | 2 => at_the_turn(random, cells),
        3 => tie_with_shear(random, cells),
        4 if kind == 4 => at_the_euler_load(random, cells),
        4 | 5 if cell(cells, DIAMETER).is_some() => at_a_count(random, cells),
        _ => {}
    }
    if cell(cells, DIAMETER).is_some() && !random.one_in(8) {
        fit_joint_length(random, cells);
    }
}

/// Whether a kind has this force.
fn carries(kind: u64, number: usize) -> bool {
    Paper::kind(kind).is_some_and(|kind| Paper::must_be_filled(kind, number, false))
}

fn member(cells: &Cells) -> Option<Member> {
    Paper::accept(cells).ok()
}

fn set(cells: &mut Cells, number: usize, force: u64) {
    if cells[number - 1].is_some() {
        cells[number - 1] = Some(into_range(number, force));
    }
}

/// What holds this force at most, when no other acts.
pub fn capacity(member: &Member, number: usize) -> u64 {
    let (width, height) = (member.width, member.height);
    match number {
        MOMENT => Paper::bending_capacity(width, height, Paper::design_bending(member)),
        SHEAR => Paper::shear_capacity(width, height, Paper::design_shear(member)),
        _ => axial_capacity(member),
    }
}

fn axial_capacity(member: &Member) -> u64 {
    let (width, height) = (member.width, member.height);
    match (member.kind, &member.joint) {
        (Kind::Tension, Some(joint)) => {
            let width = width.min(2 * joint.side_thickness);
            let net = height.saturating_sub(Paper::holes(joint));
            Paper::axial_capacity(width, net, Paper::design_tension(member))
        }
        (Kind::Tension | Kind::TensionWithBending, _) => {
            Paper::axial_capacity(width, height, Paper::design_tension(member))
        }
        _ => {
            let gross = Paper::axial_capacity(width, height, Paper::design_compression(member));
            let across_b = Paper::phi(member.length_b, width);
            let phi = Paper::phi(member.length_h, height).min(across_b);
            Paper::buckling_capacity(gross, phi)
        }
    }
}

/// One force near its capacity, the others smaller.
fn by_share(random: &mut Random, cells: &mut Cells) {
    let Some(member) = member(cells) else { return };
    let leading = random.pick(&[AXIAL, MOMENT, SHEAR]);
    for number in [AXIAL, MOMENT, SHEAR] {
        let thousandths = if number == leading {
            random.between(700, 1300)
        } else if random.one_in(2) {
            random.between(0, 20)
        } else {
            random.between(0, 600)
        };
        let force = capacity(&member, number) * thousandths / 1000;
        set(cells, number, force);
    }
}

/// Forces from ten times their capacities, where utilisations are capped.
fn beyond_the_cap(random: &mut Random, cells: &mut Cells) {
    let Some(member) = member(cells) else { return };
    for number in [AXIAL, MOMENT, SHEAR] {
        let at_cap = capacity(&member, number) * 9_999_999 / 1_000_000;
        let force = match random.below(5) {
            0 | 1 => random.near(at_cap),
            2 => at_cap * 2,
            3 => 10_000_000_000,
            _ => continue,
        };
        set(cells, number, force);
    }
}

/// One force at the greatest with which the row passes, or one to either side.
fn at_the_turn(random: &mut Random, cells: &mut Cells) {
    let number = random.pick(&[AXIAL, MOMENT, SHEAR]);
    if cell(cells, JOINT_LENGTH).is_some() && random.one_in(2) {
        set(cells, JOINT_LENGTH, 20_000);
    }
    let passes = |force: u64| {
        let mut tried = *cells;
        set(&mut tried, number, force);
        Paper::check_row(&tried).is_ok_and(|verdict| verdict.passes)
    };
    let force = random.near(greatest_force(number, passes));
    set(cells, number, force);
}

fn greatest_force(number: usize, satisfies: impl Fn(u64) -> bool) -> u64 {
    greatest(Paper::range(number).unwrap_or(0..=1), satisfies)
}

/// The greatest number of a range that satisfies what every lower one does.
pub fn greatest(range: RangeInclusive<u64>, satisfies: impl Fn(u64) -> bool) -> u64 {
    let (mut low, mut high) = (*range.start(), *range.end());
    while low < high {
        let middle = low + (high - low).div_ceil(2);
        if satisfies(middle) {
            low = middle;
        } else {
            high = middle - 1;
        }
    }
    low
}

/// The moment with which check 7 or 11 is used just as much as check 8.
fn tie_with_shear(random: &mut Random, cells: &mut Cells) {
    if cell(cells, SHEAR).is_none() {
        return;
    }
    let Some(member) = member(cells) else { return };
    let shear = capacity(&member, SHEAR) * random.between(100, 1200) / 1000;
    set(cells, SHEAR, shear);
    let used_less = |moment: u64| {
        let member = Member {
            moment,
            shear: cell(cells, SHEAR).unwrap_or(0),
            ..member
        };
        let used = match member.kind {
            Kind::Bending => Paper::bending(&member),
            _ => Paper::combined(&member),
        };
        used <= Paper::shear(&member)
    };
    let moment = greatest_force(MOMENT, used_less);
    set(cells, MOMENT, moment);
}

/// The axial force with which p reaches one.
fn at_the_euler_load(random: &mut Random, cells: &mut Cells) {
    let Some(member) = member(cells) else { return };
    let gross = Paper::axial_capacity(
        member.width,
        member.height,
        Paper::design_compression(&member),
    );
    let phi = Paper::enlarging_phi(member.length_h, member.height);
    let load = Paper::buckling_capacity(gross, phi);
    let just_below = load * 999_999 / 1_000_000;
    let force = random.pick(&[just_below, just_below + 1, load]);
    set(cells, AXIAL, random.near(force));
    let share = random.pick(&[1_000_000, 10_000, 100, 3]);
    set(cells, MOMENT, capacity(&member, MOMENT) / share);
    if random.one_in(4) {
        let p = Paper::euler_share(cell(cells, AXIAL).unwrap_or(0), load);
        set(cells, MOMENT, beyond_64_bits(random, p));
    }
}

/// A moment whose enlarged product just exceeds a multiple of 2^64, where it would look small to one who keeps only
/// 64 bits of it.
fn beyond_64_bits(random: &mut Random, p: u64) -> u64 {
    let multiple = u128::from(random.between(1, 500)) << 64;
    let moment = multiple * u128::from(1_000_000_u64.saturating_sub(p)) / 1_000_000_000_000 + 1;
    u64::try_from(moment).unwrap_or(u64::MAX)
}

/// The greatest axial force that a number of dowels carries, or one to either side.
fn at_a_count(random: &mut Random, cells: &mut Cells) {
    let Some(member) = member(cells) else { return };
    let Some(joint) = member.joint else { return };
    let dowel = Paper::dowel_capacity(&member, &joint);
    let most = random.pick(&[1, 10, 100, 1000, 100_000]);
    let mut count = random.between(1, most);
    if random.one_in(2) {
        count = count.next_multiple_of(joint.across);
    }
    set(cells, AXIAL, random.near(2 * dowel * count / 1000));
}

/// Makes the joint's length what its columns need, or nearly.
fn fit_joint_length(random: &mut Random, cells: &mut Cells) {
    let Some(member) = member(cells) else { return };
    let Some(joint) = member.joint else { return };
    let columns = Paper::columns(Paper::count(&member), joint.across);
    let needed = 7 * joint.diameter * (columns + 1);
    let length = match random.below(4) {
        0 => random.near(needed),
        1 => needed,
        _ => needed + random.below(1000),
    };
    set(cells, JOINT_LENGTH, length);
}
