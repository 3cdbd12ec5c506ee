//! Reading the host's cells: bytes to floats, floats to whole numbers by their bits.
use crate::cells::Cells;
use crate::rules::Rules;
use lvl_addin::answer::Refusal;
use lvl_addin::row::{CELLS, ROW_BYTES};

/// The bits of a float's fraction, and what its exponent is biased by.
const FRACTION_BITS: u32 = 52;
const BIAS: u64 = 1023;

/// A whole number that is read is below two to this power.
const WHOLE_BITS: u64 = 34;

/// The whole number that a float's bits stand for, if it is one from 0 to 2^34 − 1. Both zeros read 0.
pub fn whole_number(bits: u64) -> Option<u64> {
    const SIGN: u64 = 1 << 63;
    if bits & !SIGN == 0 {
        return Some(0);
    }
    // Below one, the sign aside: a fraction. Two to the 34 and above: too great, infinite or no number.
    let exponent = (bits & !SIGN) >> FRACTION_BITS;
    if bits & SIGN != 0 || !(BIAS..BIAS + WHOLE_BITS).contains(&exponent) {
        return None;
    }
    let significand = bits & ((1 << FRACTION_BITS) - 1) | 1 << FRACTION_BITS;
    let below_one = u64::from(FRACTION_BITS) - (exponent - BIAS);
    let whole = significand >> below_one;
    (whole << below_one == significand).then_some(whole)
}

/// The bits of a float as the host lays them out.
pub fn float_bits(bytes: [u8; 8]) -> u64 {
    u64::from_le_bytes(bytes)
}

/// One cell of the host's row. A blank one's bits do not matter.
pub fn read_cell<R: Rules>(tag: u8, bits: u64) -> Option<Option<u64>> {
    match tag {
        0 => Some(None),
        1 => R::whole_number(bits).map(Some),
        _ => None,
    }
}

/// The cell that nine bytes of the host's are.
pub fn read_part<R: Rules>(part: &[u8]) -> Option<Option<u64>> {
    let mut float = [0; 8];
    float.copy_from_slice(&part[1..]);
    R::read_cell(part[0], R::float_bits(float))
}

/// The cells of the host's row, or a refusal: for its length, or else for the lowest cell that does not read.
pub fn read_row<R: Rules>(row: &[u8]) -> Result<Cells, Refusal> {
    if row.len() != ROW_BYTES {
        return Err(Refusal { number: 1, cell: 0 });
    }
    let mut cells = [None; CELLS];
    for (at, part) in row.chunks_exact(9).enumerate() {
        cells[at] = read_part::<R>(part).ok_or(Refusal {
            number: 1,
            cell: at as u32 + 1,
        })?;
    }
    Ok(cells)
}
