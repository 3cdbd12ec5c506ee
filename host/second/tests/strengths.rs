//! Design strengths with their remainders worked by hand, and the order of refusals, on the entry and on the second
//! implementation.
#[path = "common/both.rs"]
mod both;
#[path = "strengths/order.rs"]
mod order;
#[path = "common/row_order.rs"]
mod row_order;

use both::both;
use lvl_addin::entry;
use lvl_addin::row::CELLS;
use lvl_addin::strengths::{Strength, Strengths, STRENGTHS_BYTES, STRENGTH_DIVISOR};
use lvl_second::cells::*;
use lvl_second::rows::bytes_of;
use lvl_second::rows::worked::{a, b, of_every_kind, with};

/// What both implementations return and leave in an answer of this length; they must not differ, nor write at a
/// refusal.
fn answer(row: &[u8], length: usize) -> (u64, Vec<u8>) {
    let (code, mut lent) = both(
        entry::strengths_bytes,
        lvl_second::strengths_bytes,
        row,
        length,
        0,
    );
    (code, lent.part().to_vec())
}

/// Holds both implementations to four strengths and remainders: bending, compression, tension, shear.
fn assert_strengths(cells: &Cells, expected: [(u32, u32); 4]) {
    let (code, bytes) = answer(&bytes_of(cells), STRENGTHS_BYTES);
    assert_eq!(code, 0, "{cells:?}");
    let floats: Vec<u8> = expected
        .iter()
        .flat_map(|&(kpa, remainder)| [f64::from(kpa), f64::from(remainder)])
        .flat_map(f64::to_le_bytes)
        .collect();
    assert_eq!(bytes, floats, "{cells:?}");
    let [bending, compression, tension, shear] =
        expected.map(|(kpa, remainder)| Strength { kpa, remainder });
    let held = Strengths {
        bending,
        compression,
        tension,
        shear,
    };
    assert_eq!(entry::strengths(&host_row(cells)), Ok(held));
}

/// The host's cells of a row.
fn host_row(cells: &Cells) -> [Option<f64>; CELLS] {
    cells.map(|cell| cell.map(|value| value as f64))
}

/// A row with another material: grade, regime, moisture and office factor.
fn made_of(mut cells: Cells, material: [u64; 4]) -> Cells {
    for (number, value) in (GRADE..=OFFICE_FACTOR).zip(material) {
        cells = with(cells, number, value);
    }
    cells
}

/// Worked row A with another material.
fn beam(grade: u64, regime: u64, moisture: u64, office_factor: u64) -> Cells {
    made_of(a(), [grade, regime, moisture, office_factor])
}

/// t × w × o = 66 × 100 × 1000 = 6,600,000.
#[test]
fn row_a_drops_nothing() {
    // 39,000 × 6,600,000 = 257,400,000,000, 32,000 × … = 211,200,000,000, 31,000 × … = 204,600,000,000 and
    // 4,100 × … = 27,060,000,000.
    assert_strengths(&a(), [(25_740, 0), (21_120, 0), (20_460, 0), (2706, 0)]);
}

/// t × w × o = 53 × 90 × 1000 = 4,770,000.
#[test]
fn row_b_drops_three_tenths_in_shear() {
    // 30,000 × 4,770,000 = 143,100,000,000, 27,000 × … = 128,790,000,000, 24,000 × … = 114,480,000,000 and
    // 3,900 × … = 18,603,000,000, which is 1860 × 10,000,000 and 3,000,000 more.
    assert_strengths(
        &b(),
        [(14_310, 0), (12_879, 0), (11_448, 0), (1860, 3_000_000)],
    );
}

/// K40, regime Ж, 16 percent, o 977: t × w × o = 92 × 85 × 977 = 7,640,140.
#[test]
fn every_strength_drops_something() {
    // 34,000 × 7,640,140 = 259,764,760,000
    // 30,000 × 7,640,140 = 229,204,200,000
    // 27,000 × 7,640,140 = 206,283,780,000
    //  3,900 × 7,640,140 =  29,796,546,000
    assert_strengths(
        &beam(2, 7, 16, 977),
        [
            (25_976, 4_760_000),
            (22_920, 4_200_000),
            (20_628, 3_780_000),
            (2979, 6_546_000),
        ],
    );
}

/// K35, regime Б, 60 percent, o 500: t × w × o = 53 × 75 × 500 = 1,987,500.
#[test]
fn the_weakest_material_drops_just_a_half_in_bending() {
    // 30,000 × 1,987,500 = 59,625,000,000
    // 27,000 × 1,987,500 = 53,662,500,000
    // 24,000 × 1,987,500 = 47,700,000,000
    //  3,900 × 1,987,500 =  7,751,250,000
    assert_strengths(
        &beam(3, 2, 60, 500),
        [
            (5962, 5_000_000),
            (5366, 2_500_000),
            (4770, 0),
            (775, 1_250_000),
        ],
    );
}

/// K45, regime И, dry, o 1000: t × w × o = 110 × 100 × 1000 = 11,000,000. Regime И is above one.
#[test]
fn the_strongest_material_is_above_table_7() {
    // 39,000 × 1.1, 32,000 × 1.1, 31,000 × 1.1 and 4,100 × 1.1.
    assert_strengths(
        &beam(1, 8, 0, 1000),
        [(42_900, 0), (35_200, 0), (34_100, 0), (4510, 0)],
    );
}

/// The greatest remainder of all, a quarter of a thousandth below one. K45, regime Б, 21 percent, o 921: t × w × o =
/// 53 × 75 × 921 = 3,660,975.
#[test]
fn nearly_a_whole_kilopascal_is_dropped() {
    // 39,000 × 3,660,975 = 142,778,025,000
    // 32,000 × 3,660,975 = 117,151,200,000
    // 31,000 × 3,660,975 = 113,490,225,000
    //  4,100 × 3,660,975 =  15,009,997,500
    assert_strengths(
        &beam(1, 2, 21, 921),
        [
            (14_277, 8_025_000),
            (11_715, 1_200_000),
            (11_349, 225_000),
            (1500, 9_997_500),
        ],
    );
}

/// The least remainder above 0. K45, regime Ж, 20 percent, o 742: t × w × o = 92 × 85 × 742 = 5,802,440.
#[test]
fn hardly_anything_is_dropped() {
    // 39,000 × 5,802,440 = 226,295,160,000
    // 32,000 × 5,802,440 = 185,678,080,000
    // 31,000 × 5,802,440 = 179,875,640,000
    //  4,100 × 5,802,440 =  23,790,004,000
    assert_strengths(
        &beam(1, 7, 20, 742),
        [
            (22_629, 5_160_000),
            (18_567, 8_080_000),
            (17_987, 5_640_000),
            (2379, 4000),
        ],
    );
}

#[test]
fn a_remainder_counts_parts_of_the_divisor() {
    assert_eq!(STRENGTH_DIVISOR, 10_000_000);
    let held = entry::strengths(&host_row(&b())).expect("row B is not refused");
    let Strength { kpa, remainder } = held.shear;
    let undivided = u64::from(kpa) * u64::from(STRENGTH_DIVISOR) + u64::from(remainder);
    assert_eq!(undivided, 3900 * 53 * 90 * 1000);
}

/// All four are given, also those that no check of the kind uses: as in row B, whatever the rest of the row is.
#[test]
fn strengths_depend_on_the_material_alone() {
    for row in of_every_kind() {
        assert_strengths(
            &made_of(row, [3, 2, 13, 1000]),
            [(14_310, 0), (12_879, 0), (11_448, 0), (1860, 3_000_000)],
        );
    }
}

/// A row that fails its check is not refused: 0 is returned all the same.
#[test]
fn a_row_that_fails_has_the_strengths_of_one_that_passes() {
    let strengths = [(25_740, 0), (21_120, 0), (20_460, 0), (2706, 0)];
    for moment in [1, 28_957_500, 28_957_501, 10_000_000_000] {
        let cells = with(a(), MOMENT, moment);
        let passes = entry::check(&host_row(&cells)).is_ok_and(|verdict| verdict.passes);
        assert_eq!(passes, moment <= 28_957_500);
        assert_strengths(&cells, strengths);
    }
}
