//! Inputs of the program `schedule`: packed rows back to back, whole, cut off or spoilt.
use super::random::Random;
use super::worked::{e, shortest_e, with};
use super::{judged, refused};
use crate::cells::{AXIAL, JOINT_LENGTH};
use crate::{Cells, Paper, Rules, INPUT_BYTES};
use lvl_addin::row::{CELLS, PACKED_BYTES};

/// The stored input: rows of all kinds, judged and refused, worked rows E and F with E at the edges of its length and of
/// its dowels, and the beginning of one more.
pub fn stored() -> Vec<u8> {
    let mut random = Random::new(0x5343_4845_4455_4C45);
    let mut input = Vec::new();
    for _ in 0..600 {
        append_any(&mut random, &mut input);
    }
    for cells in joints() {
        append(&cells, &mut input);
    }
    let last = judged::row(&mut random, 1, true);
    append(&last, &mut input);
    input.truncate(input.len() - 1);
    input
}

/// Rows E and F, E at its shortest, and this with the greatest force for the 21 dowels of its columns and with one newton
/// more, which takes a column that the length has no room for.
fn joints() -> [Cells; 5] {
    let most = with(shortest_e(), AXIAL, 105_501);
    [
        e(),
        with(e(), JOINT_LENGTH, 671),
        shortest_e(),
        most,
        with(most, AXIAL, 105_502),
    ]
}

/// A short input: some rows, and then its end, a row cut off, a row with a padding bit set, or any bytes.
pub fn any(random: &mut Random) -> Vec<u8> {
    let mut input = Vec::new();
    for _ in 0..random.below(12) {
        append_any(random, &mut input);
    }
    match random.below(4) {
        0 => {}
        1 => {
            let whole = input.len();
            append_any(random, &mut input);
            let cut = random.below((input.len() - whole) as u64) as usize;
            input.truncate(whole + cut);
        }
        2 => {
            append_spoilt(random, &mut input);
            append_any(random, &mut input);
        }
        _ => {
            let length = random.below(200);
            let sparse = random.below(4);
            input
                .extend((0..length).map(|_| {
                    (0..sparse).fold(random.bits(), |bits, _| bits & random.bits()) as u8
                }));
        }
    }
    input
}

/// An input of more bytes than are looked at, in which a row ends so many bytes after the last of those.
pub fn long(random: &mut Random, beyond: usize) -> Vec<u8> {
    let end = INPUT_BYTES + beyond;
    let mut input = Vec::new();
    while input.len() + 2 * PACKED_BYTES < end {
        append_any(random, &mut input);
    }
    // Blank rows have 3 bytes and those with one filled cell 7, without a common divisor: together they reach every end.
    let blank = [None; CELLS];
    let mut one_filled = blank;
    one_filled[CELLS - 1] = Some(1);
    while (end - input.len()) % Paper::packed_length(&blank) != 0 {
        append(&one_filled, &mut input);
    }
    while input.len() < end {
        append(&blank, &mut input);
    }
    append_any(random, &mut input);
    input
}

/// Appends a row as it is packed.
pub fn append(cells: &Cells, input: &mut Vec<u8>) {
    let mut bytes = [0; PACKED_BYTES];
    let length = Paper::pack(cells, &mut bytes).expect("the row's values fit 34 bits");
    input.extend(&bytes[..length]);
}

fn append_any(random: &mut Random, input: &mut Vec<u8>) {
    let cells = match random.below(4) {
        0 => refused::row(random).map(|cell| cell.map(|value| value % (1 << 34))),
        _ => judged::any_row(random),
    };
    append(&cells, input);
}

/// Appends a row of kind 3, which has padding bits, with one of them set.
fn append_spoilt(random: &mut Random, input: &mut Vec<u8>) {
    let cells = judged::row(random, 3, false);
    append(&cells, input);
    let bits: u32 = cells.iter().map(|&cell| Paper::cell_bits(cell).1).sum();
    let padding = bits.next_multiple_of(8) - bits;
    if let Some(last) = input.last_mut() {
        *last |= 1 << random.below(padding.into());
    }
}
