//! Document 01's worked rows A to H, E and F as request 5 has them, on the entries and on the second implementation,
//! with every figure that they give.
use lvl_addin::answer::Verdict;
use lvl_addin::entry;
use lvl_addin::row::{HostRow, ANSWER_BYTES, CELLS, PACKED_BYTES};
use lvl_second::cells::*;
use lvl_second::rows::bytes_of;
use lvl_second::rows::worked::{a, b, e, shortest_e, with};
use lvl_second::{Paper, Rules};

/// Holds both implementations to a verdict.
fn assert_verdict(cells: &Cells, passes: bool, check: u32, utilisation: u32, count: u32) {
    let expected = Verdict {
        passes,
        check,
        utilisation,
        count,
    };
    assert_eq!(Paper::check_row(cells), Ok(expected));
    let bytes = bytes_of(cells);
    for checks in [entry::check_bytes, lvl_second::check_bytes] {
        let mut answer = [0; ANSWER_BYTES];
        let code = checks(&bytes, &mut answer);
        assert_eq!(code, u64::from(!passes));
        assert_eq!(entry::verdict(code == 0, &answer), expected);
    }
}

fn member(cells: &Cells) -> Member {
    Paper::accept(cells).expect("a worked row is accepted")
}

#[test]
fn row_a_bends() {
    assert_verdict(&a(), true, 7, 690_668, 0);
    let member = member(&a());
    let strength = Paper::design_bending(&member);
    assert_eq!(strength, 25_740);
    assert_eq!(Paper::bending_capacity(75, 300, strength), 28_957_500);
    assert_eq!(Paper::shear(&member), 492_733);
}

#[test]
fn row_b_buckles_across_b() {
    assert_verdict(&b(), true, 10, 315_122, 0);
    let strength = Paper::design_compression(&member(&b()));
    assert_eq!(strength, 12_879);
    assert_eq!(Paper::axial_capacity(100, 200, strength), 257_580);
    assert_eq!(Paper::phi(3000, 200), 784_000);
    assert_eq!(Paper::phi(2000, 100), 616_000);
}

/// φ is seen in the utilisation too: a longer strut than C's is the stronger.
#[test]
fn rows_c_and_d_stand_on_either_side_of_slenderness_70() {
    assert_eq!(Paper::phi(2020, 100), 608_281);
    assert_eq!(Paper::phi(2021, 100), 612_078);
    let capacity = |phi: u64| 257_580 * phi / 1_000_000;
    let utilisation = |phi: u64| 50_000_000_000_u64.div_ceil(capacity(phi)) as u32;
    assert_verdict(
        &with(b(), LENGTH_B, 2020),
        true,
        10,
        utilisation(608_281),
        0,
    );
    assert_verdict(
        &with(b(), LENGTH_B, 2021),
        true,
        10,
        utilisation(612_078),
        0,
    );
}

#[test]
fn row_e_has_a_joint() {
    assert_verdict(&e(), true, 5, 342_176, 20);
    let member = member(&e());
    let joint = member.joint.expect("row E has a joint");
    assert_eq!(Paper::dowel_term(&joint), 309_200);
    assert_eq!(
        Paper::factor_root(Paper::factor_product(&member.factors)),
        812_403
    );
    let modes = Paper::mode_capacities(&member, &joint);
    assert_eq!(modes, [3_960_000, 3_168_000, 2_511_950]);
    let dowel = Paper::dowel_capacity(&member, &joint);
    assert_eq!(dowel, 2_511_950);
    let count = Paper::dowel_count(member.axial, dowel);
    assert_eq!(count, 20);
    assert_eq!(Paper::columns(count, joint.across), 7);
}

#[test]
fn row_e_at_its_shortest_passes() {
    assert_eq!(cell(&shortest_e(), JOINT_LENGTH), Some(7 * 12 * (7 + 1)));
    assert_verdict(&shortest_e(), true, 5, 342_176, 20);
}

#[test]
fn row_f_is_one_millimetre_short() {
    assert_verdict(&with(e(), JOINT_LENGTH, 671), false, 4, 0, 20);
}

#[test]
fn row_g_has_dowels_too_thick_for_its_height() {
    assert_verdict(&with(e(), DIAMETER, 16), false, 1, 0, 0);
}

#[test]
fn row_h_packs_to_three_zero_bytes() {
    let blank: HostRow = [None; CELLS];
    assert_eq!(entry::pack(&blank), Ok(vec![0, 0, 0]));
    let mut out = [0xFF; 4];
    assert_eq!(Paper::pack(&[None; CELLS], &mut out), Ok(3));
    assert_eq!(out, [0, 0, 0, 0xFF]);
    assert_eq!(Paper::unpack(&[0, 0, 0]), Ok(([None; CELLS], 3)));
}

/// What no host's row can show: a value of more than 34 bits is refused, the lowest first, before the space.
#[test]
fn packing_refuses_what_34_bits_do_not_hold() {
    let mut cells = [Some((1 << 34) - 1); CELLS];
    let mut out = [0xFF; PACKED_BYTES];
    assert_eq!(Paper::pack(&cells, &mut out), Ok(PACKED_BYTES));
    cells[OFFICE_FACTOR - 1] = Some(1 << 34);
    cells[KE - 1] = Some(u64::MAX);
    let refused = Paper::pack(&cells, &mut out[..2]).expect_err("the value is too great");
    assert_eq!((refused.number, refused.cell), (4, OFFICE_FACTOR as u32));
}
