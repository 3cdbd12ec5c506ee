//! Damage to the host's bytes: first bytes, floats that are no whole numbers, bits.
use super::random::Random;

/// Floats at the edges of what reads as a whole number, and beyond.
pub const FLOATS: [u64; 32] = [
    0x0000_0000_0000_0000, // 0
    0x8000_0000_0000_0000, // −0
    0x0000_0000_0000_0001, // the least subnormal
    0x8000_0000_0000_0001,
    0x000F_FFFF_FFFF_FFFF, // the greatest subnormal
    0x0010_0000_0000_0000, // the least normal
    0x3FE0_0000_0000_0000, // 0.5
    0x3FEF_FFFF_FFFF_FFFF, // just below 1
    0x3FF0_0000_0000_0000, // 1
    0x3FF0_0000_0000_0001, // just above 1
    0x3FF8_0000_0000_0000, // 1.5
    0xBFF0_0000_0000_0000, // −1
    0x4000_0000_0000_0000, // 2
    0x4004_0000_0000_0000, // 2.5
    0x4008_0000_0000_0000, // 3
    0x4020_0000_0000_0000, // 8
    0x41F0_0000_0000_0000, // 2^32
    0x420F_FFFF_FF80_0000, // 2^34 − 1
    0x420F_FFFF_FFC0_0000, // 2^34 − 1/2
    0x420F_FFFF_FFFF_FFFF, // just below 2^34
    0x4210_0000_0000_0000, // 2^34
    0x4210_0000_0040_0000, // 2^34 + 1
    0x4330_0000_0000_0000, // 2^52
    0x43F0_0000_0000_0000, // 2^64
    0x7FEF_FFFF_FFFF_FFFF, // the greatest
    0x7FF0_0000_0000_0000, // infinity
    0xFFF0_0000_0000_0000, // −infinity
    0x7FF0_0000_0000_0001, // a signalling NaN
    0x7FF4_0000_0000_0000, // another
    0x7FF8_0000_0000_0000, // a quiet NaN
    0xFFF8_0000_0000_0000, // a negative NaN
    0xFFFF_FFFF_FFFF_FFFF, // another
];

/// Damages one or two places of a row, or of a floor beam or a sag, which have cells of the same form.
pub fn damage(random: &mut Random, row: &mut [u8]) {
    for _ in 0..random.between(1, 2) {
        damage_once(random, row);
    }
}

fn damage_once(random: &mut Random, row: &mut [u8]) {
    let cells = row.len() as u64 / 9;
    let at = 9 * random.below(cells) as usize;
    match random.below(8) {
        0 => row[at] = random.between(2, 255) as u8,
        1 | 2 => {
            row[at] = 1;
            let float = random.pick(&FLOATS);
            put(row, at, float);
        }
        // A blank cell with bits: it reads as blank all the same.
        3 => row[at] = 0,
        4 if row[at] == 0 => {
            let bits = random.bits();
            put(row, at, bits);
        }
        5 => {
            let small = random.below(40_000) as f64 / 16.0;
            put(row, at, small.to_bits());
        }
        6 if random.one_in(8) => row.fill_with(|| random.bits() as u8 & random.bits() as u8 & 1),
        _ => {
            let bit = random.below(8 * row.len() as u64) as usize;
            row[bit / 8] ^= 1 << (bit % 8);
        }
    }
}

/// Puts a float's bits into the cell that starts at a place.
pub fn put(row: &mut [u8], at: usize, bits: u64) {
    row[at + 1..at + 9].copy_from_slice(&bits.to_le_bytes());
}
