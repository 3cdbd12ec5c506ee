//! What the strengths of a material have to make up, in wide whole numbers, by tables that nothing else shares.
use lvl_addin::row::ROW_BYTES;
use lvl_second::cells::{cell, Cells, GRADE, MOISTURE, OFFICE_FACTOR, REGIME};
use lvl_second::rows::damaged::put;

/// Table 7 by grade, kPa: bending, compression, tension, shear.
const TABLE_7: [[u128; 4]; 3] = [
    [39_000, 32_000, 31_000, 4_100],
    [34_000, 30_000, 27_000, 3_900],
    [30_000, 27_000, 24_000, 3_900],
];

/// t by the regime's code, hundredths.
#[rustfmt::skip]
pub const DURATIONS: [(u64, u128); 10] = [
    (1, 100), (2, 53), (3, 66), (4, 66), (5, 80), (6, 80), (7, 92), (8, 110), (10, 75), (11, 100),
];

/// w of each class of moisture by the greatest moisture in it, hundredths.
const MOISTURES: [(u64, u128); 4] = [(12, 100), (15, 90), (20, 85), (60, 75)];

/// What the product is divided by.
pub const DIVISOR: u128 = 10_000_000;

/// All that a strength depends on.
#[derive(Clone, Copy, Debug)]
pub struct Material {
    pub grade: u64,
    pub regime: u64,
    pub moisture: u64,
    pub office_factor: u64,
}

impl Material {
    /// The material of an accepted row.
    pub fn of(cells: &Cells) -> Material {
        let filled = |number| cell(cells, number).expect("an accepted row has a material");
        Material {
            grade: filled(GRADE),
            regime: filled(REGIME),
            moisture: filled(MOISTURE),
            office_factor: filled(OFFICE_FACTOR),
        }
    }

    /// A row with this material in place of its own.
    pub fn put_into(&self, mut row: [u8; ROW_BYTES]) -> [u8; ROW_BYTES] {
        let cells = [
            (GRADE, self.grade),
            (REGIME, self.regime),
            (MOISTURE, self.moisture),
            (OFFICE_FACTOR, self.office_factor),
        ];
        for (number, value) in cells {
            put(&mut row, 9 * (number - 1), (value as f64).to_bits());
        }
        row
    }

    /// Table value × t × w × o in each stress.
    fn undivided(&self) -> [u128; 4] {
        let duration = DURATIONS.iter().find(|(code, _)| *code == self.regime);
        let moisture = MOISTURES.iter().find(|(most, _)| self.moisture <= *most);
        let (_, t) = duration.expect("the regime is known");
        let (_, w) = moisture.expect("the moisture is in range");
        let table_values = TABLE_7[self.grade as usize - 1];
        table_values.map(|value| value * t * w * u128::from(self.office_factor))
    }
}

/// A strength and its remainder in each stress.
pub type Given = [[u64; 2]; 4];

/// The numbers of an answer, all of them whole.
pub fn given(answer: &[u8]) -> Given {
    let mut given = Given::default();
    let numbers = given.as_flattened_mut();
    assert_eq!(answer.len(), 8 * numbers.len());
    for (number, float) in numbers.iter_mut().zip(answer.chunks_exact(8)) {
        *number = whole_number(float);
    }
    given
}

/// The whole number that a float is, to the bit: neither a fraction nor −0.
fn whole_number(float: &[u8]) -> u64 {
    let float = f64::from_le_bytes(float.try_into().expect("eight bytes"));
    let number = float as u64;
    assert_eq!(float.to_bits(), (number as f64).to_bits(), "{float:?}");
    number
}

/// Whether strengths and remainders make up the undivided products, each remainder below the divisor; otherwise what is
/// wrong.
pub fn makes_up(material: &Material, given: &Given) -> Result<(), String> {
    for (undivided, pair) in material.undivided().into_iter().zip(given) {
        let [strength, remainder] = pair.map(u128::from);
        if strength * DIVISOR + remainder != undivided || remainder >= DIVISOR {
            return Err(format!("{material:?}: {pair:?} for {undivided}"));
        }
    }
    Ok(())
}

/// Holds strengths and remainders to the undivided products.
pub fn assert_exact(material: &Material, given: &Given) {
    if let Err(why) = makes_up(material, given) {
        panic!("{why}");
    }
}

/// Row B's material: 12,879 kPa in compression without a remainder, 1860 kPa in shear with 3,000,000.
#[test]
fn what_does_not_make_up_the_product_is_refuted() {
    let material = Material {
        grade: 3,
        regime: 2,
        moisture: 13,
        office_factor: 1000,
    };
    let right = [[14_310, 0], [12_879, 0], [11_448, 0], [1860, 3_000_000]];
    assert_eq!(makes_up(&material, &right), Ok(()));
    let wrong = [
        (1, [12_878, 0]),
        (1, [12_880, 0]),
        (1, [12_879, 1]),
        (1, [12_878, 10_000_000]),
        (1, [0, 12_879]),
        (3, [1860, 0]),
        (3, [1860, 2_999_999]),
        (3, [1861, 3_000_000]),
        (3, [1859, 13_000_000]),
        (3, [3_000_000, 1860]),
    ];
    for (stress, pair) in wrong {
        let mut given = right;
        given[stress] = pair;
        assert!(makes_up(&material, &given).is_err(), "{pair:?}");
    }
}
