//! Sags worked by hand, and the order of refusals, on the entry and on the second implementation.
#[path = "common/lent.rs"]
mod lent;
#[path = "sags/order.rs"]
mod order;
#[path = "common/row_order.rs"]
mod row_order;

use lent::both_on;
use lvl_addin::entry;
use lvl_addin::row::CELLS;
use lvl_addin::sag::{SagVerdict, SAG_ANSWER_BYTES};
use lvl_second::cells::*;
use lvl_second::rows;
use lvl_second::rows::worked::{a, with};
use lvl_second::sag::Sag;
use lvl_second::sags::bytes_of;

/// What both implementations return and leave in an answer of this length; they must not differ, nor write at a
/// refusal.
fn answer(row: &[u8], sag: &[u8], length: usize) -> (u64, Vec<u8>) {
    let (code, mut lent) = both_on(
        |lent| entry::check_sag_bytes(row, sag, lent),
        |lent| lvl_second::check_sag_bytes(row, sag, lent),
        (row, sag),
        length,
        0,
    );
    (code, lent.part().to_vec())
}

/// Holds both implementations to a verdict, byte by byte.
fn assert_verdict(cells: &Cells, sag: (u64, u64, u64), expected: SagVerdict) {
    let (span, moment, limit) = sag;
    let sag = Sag {
        span,
        moment,
        limit,
    };
    let (code, bytes) = answer(&rows::bytes_of(cells), &bytes_of(&sag), SAG_ANSWER_BYTES);
    assert_eq!(code, u64::from(!expected.passes), "{cells:?}, {sag:?}");
    let floats = [
        f64::from(expected.utilisation),
        f64::from(expected.modulus),
        f64::from(expected.elastic_duration),
        f64::from(expected.moisture),
        f64::from(expected.design_modulus),
        expected.limit_moment as f64,
        f64::from(expected.shear_factor),
    ];
    let floats: Vec<u8> = floats.into_iter().flat_map(f64::to_le_bytes).collect();
    assert_eq!(bytes, floats, "{cells:?}, {sag:?}");
    let host_row: [Option<f64>; CELLS] = cells.map(|cell| cell.map(|value| value as f64));
    let host_sag = [span, moment, limit].map(|number| Some(number as f64));
    assert_eq!(entry::check_sag(&host_row, &host_sag), Ok(expected));
}

/// Worked row A over 6 m with n 200. e of regime В is 0.9 and w 1: E is 12,000 × 90 × 100 / 10,000 = 10,800. Mf is
/// 4 × 10,800 × 75 × 27,000,000 / (5 × 6000 × 200) = 87,480,000,000,000 / 6,000,000 = 14,580,000. The shear factor is
/// 1,000,000 + 19,200,000 × 90,000 / 36,000,000 = 1,048,000.
fn of_row_a(utilisation: u32) -> SagVerdict {
    SagVerdict {
        passes: utilisation <= 1_000_000,
        utilisation,
        modulus: 12_000,
        elastic_duration: 90,
        moisture: 100,
        design_modulus: 10_800,
        limit_moment: 14_580_000,
        shear_factor: 1_048_000,
    }
}

/// 15,000,000 × 1,048,000 / 14,580,000 = 1,078,189.3…: the beam passes in bending, at 690,668, and sags too much.
#[test]
fn row_a_sags_too_much() {
    assert_verdict(&a(), (6000, 15_000_000, 200), of_row_a(1_078_190));
}

/// Mf / 1.048 is 13,912,213.7…: 13,912,213 × 1,048,000 / 14,580,000 = 999,999.9…, and of one more 1,000,000.01….
#[test]
fn row_a_at_its_turn() {
    assert_verdict(&a(), (6000, 13_912_213, 200), of_row_a(1_000_000));
    assert_verdict(&a(), (6000, 13_912_214, 200), of_row_a(1_000_001));
}

/// Cell 5 has no part in a sag, nor have the row's own moment and shear force.
#[test]
fn office_factor_and_forces_do_not_matter() {
    let weakened = with(a(), OFFICE_FACTOR, 500);
    assert_verdict(&weakened, (6000, 15_000_000, 200), of_row_a(1_078_190));
    let overloaded = with(with(a(), MOMENT, 10_000_000_000), SHEAR, 100_000_000);
    assert_verdict(&overloaded, (6000, 13_912_213, 200), of_row_a(1_000_000));
}

/// Regime Г has В's factor for strengths, and not for E: 12,000. Mf is 16,200,000 and the utilisation of 15,000,000
/// 970,370.3….
#[test]
fn regimes_v_and_g_differ() {
    let expected = SagVerdict {
        passes: true,
        utilisation: 970_371,
        elastic_duration: 100,
        design_modulus: 12_000,
        limit_moment: 16_200_000,
        ..of_row_a(0)
    };
    assert_verdict(&with(a(), REGIME, 4), (6000, 15_000_000, 200), expected);
}

/// 20 by 60 in regime Б at 25 percent.
fn weakest(grade: u64) -> Cells {
    let material = with(with(with(a(), GRADE, grade), REGIME, 2), MOISTURE, 25);
    let section = with(with(material, WIDTH, 20), HEIGHT, 60);
    with(with(section, MOMENT, 1000), SHEAR, 10)
}

/// K35 over 20 m with n 500. E is 10,000 × 75 × 75 / 10,000 = 5625 and Mf 4 × 5625 × 20 × 216,000 / (5 × 20,000 × 500) =
/// 97,200,000,000 / 50,000,000 = 1944, the least there is. 19,200,000 × 3600 / 400,000,000 is 172.8: the shear factor is
/// 1,000,173.
fn of_the_least(utilisation: u32) -> SagVerdict {
    SagVerdict {
        passes: utilisation <= 1_000_000,
        utilisation,
        modulus: 10_000,
        elastic_duration: 75,
        moisture: 75,
        design_modulus: 5625,
        limit_moment: 1944,
        shear_factor: 1_000_173,
    }
}

/// 1,000,173 / 1944 = 514.4….
#[test]
fn the_least_moment_on_the_weakest_beam() {
    assert_verdict(&weakest(3), (20_000, 1, 500), of_the_least(515));
}

/// 1944 / 1.000173 is 1943.6…: 1943 × 1,000,173 / 1944 = 1,943,336,139 / 1944 = 999,658.5…, and of one more just the
/// shear factor.
#[test]
fn the_weakest_beam_at_its_turn() {
    assert_verdict(&weakest(3), (20_000, 1943, 500), of_the_least(999_659));
    assert_verdict(&weakest(3), (20_000, 1944, 500), of_the_least(1_000_173));
}

/// K40 in its place. 11,000 × 75 × 75 / 10,000 is 6187.5 and 4 × 6187 × 20 × 216,000 / 50,000,000 is 2138.2…. At 2138 it
/// is rounding that fails it, for 2138 × 1.0001728 = 2138.36… is less than 6187.5 × 0.3456 = 2138.4.
#[test]
fn a_modulus_with_a_half() {
    let expected = |utilisation| SagVerdict {
        modulus: 11_000,
        design_modulus: 6187,
        limit_moment: 2138,
        ..of_the_least(utilisation)
    };
    // 2137 × 1,000,173 / 2138 = 2,137,369,701 / 2138 = 999,705.1….
    assert_verdict(&weakest(2), (20_000, 2137, 500), expected(999_706));
    assert_verdict(&weakest(2), (20_000, 2138, 500), expected(1_000_173));
}

/// 55 by 300 of K45 in regime А over 1.2 m with n 100: Mf is 4 × 12,000 × 55 × 27,000,000 / 600,000 = 118,800,000, and
/// the shear factor 1,000,000 + 19,200,000 / 16 = 2,200,000. 54 N·mm make one millionth.
#[test]
fn whole_utilisations_and_the_cap() {
    let cells = with(with(a(), WIDTH, 55), REGIME, 1);
    let expected = |utilisation| SagVerdict {
        passes: utilisation <= 1_000_000,
        utilisation,
        modulus: 12_000,
        elastic_duration: 100,
        moisture: 100,
        design_modulus: 12_000,
        limit_moment: 118_800_000,
        shear_factor: 2_200_000,
    };
    let answers = [
        (54_000_000, 1_000_000),
        (54_000_001, 1_000_001),
        (54 * 9_999_998, 9_999_998),
        (54 * 9_999_998 + 1, 9_999_999),
        (54 * 9_999_999, 9_999_999),
        (54 * 9_999_999 + 1, 9_999_999),
        (10_000_000_000, 9_999_999),
    ];
    for (moment, utilisation) in answers {
        assert_verdict(&cells, (1200, moment, 100), expected(utilisation));
    }
}

/// 300 by 2500 of K45 in regime А over half a metre with n 500: Mf is 225,000,000,000,000,000 / 1,250,000 =
/// 180,000,000,000, and the shear factor 1,000,000 + 19,200,000 × 25. 374,220,374 × 481 = 179,999,999,894.
#[test]
fn the_greatest_shear_factor() {
    let cells = with(with(with(a(), WIDTH, 300), HEIGHT, 2500), REGIME, 1);
    let expected = |utilisation| SagVerdict {
        passes: utilisation <= 1_000_000,
        utilisation,
        modulus: 12_000,
        elastic_duration: 100,
        moisture: 100,
        design_modulus: 12_000,
        limit_moment: 180_000_000_000,
        shear_factor: 481_000_000,
    };
    assert_verdict(&cells, (500, 374_220_374, 500), expected(1_000_000));
    assert_verdict(&cells, (500, 374_220_375, 500), expected(1_000_001));
}
