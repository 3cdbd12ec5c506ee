//! Wrong copies of packing.
use lvl_addin::answer::Refusal;
use lvl_addin::row::{CELLS, PACKED_BYTES};
use lvl_second::{Cells, Paper};

/// The bits of a packed cell, its value in this width.
fn value_in(width: u32, cell: Option<u64>) -> (u64, u32) {
    cell.map_or((0, 1), |value| {
        ((1 << width) | (value % (1 << width)), 1 + width)
    })
}

wrong_copies! { Rules, Packing:
    ValuesOf33Bits {
        fn cell_bits(cell: Option<u64>) -> (u64, u32) {
            value_in(33, cell)
        }
    }
    ValuesOf35Bits {
        fn cell_bits(cell: Option<u64>) -> (u64, u32) {
            value_in(35, cell)
        }
    }
    ValuesLeastBitFirst {
        fn cell_bits(cell: Option<u64>) -> (u64, u32) {
            cell.map_or((0, 1), |value| (1 << 34 | value.reverse_bits() >> 30, 35))
        }
    }
    CellsLeastBitFirst {
        fn cell_bits(cell: Option<u64>) -> (u64, u32) {
            cell.map_or((0, 1), |value| (value << 1 | 1, 35))
        }
    }
    FilledAndBlankBitsExchanged {
        fn cell_bits(cell: Option<u64>) -> (u64, u32) {
            cell.map_or((1, 1), |value| (value, 35))
        }
    }
    ZeroPackedAsBlank {
        fn cell_bits(cell: Option<u64>) -> (u64, u32) {
            Paper::cell_bits(cell.filter(|&value| value != 0))
        }
    }
    BlanksOf35Bits {
        fn cell_bits(cell: Option<u64>) -> (u64, u32) {
            (Paper::cell_bits(cell).0, 35)
        }
    }
    BytesLeastBitFirst {
        fn write_packed(cells: &Cells, out: &mut [u8]) {
            Paper::write_packed(cells, out);
            out.iter_mut().for_each(|byte| *byte = byte.reverse_bits());
        }
    }
    OnesAsPadding {
        fn padding(width: u32) -> u64 {
            (1 << width) - 1
        }
    }
    FirstPaddingBitSet {
        fn padding(width: u32) -> u64 {
            1 << width >> 1
        }
    }
    PaddedInFront {
        fn write_packed(cells: &Cells, out: &mut [u8]) {
            let bits: u32 = cells.iter().map(|&cell| Paper::cell_bits(cell).1).sum();
            let padding = (8 - bits % 8) % 8;
            Paper::write_packed(cells, out);
            (0..padding).for_each(|_| shift_right(out));
        }
    }
    LastCellFirst {
        fn write_packed(cells: &Cells, out: &mut [u8]) {
            let mut reversed = *cells;
            reversed.reverse();
            Paper::write_packed(&reversed, out);
        }
    }
    LastCellLeftOut {
        fn write_packed(cells: &Cells, out: &mut [u8]) {
            let mut cells = *cells;
            cells[CELLS - 1] = None;
            Paper::write_packed(&cells, out);
        }
    }
    PaddingByteWithoutNeed {
        fn packed_length(cells: &Cells) -> usize {
            let bits: u32 = cells.iter().map(|&cell| Paper::cell_bits(cell).1).sum();
            bits as usize / 8 + 1
        }
    }
    LastByteLeftOut {
        fn packed_length(cells: &Cells) -> usize {
            let bits: u32 = cells.iter().map(|&cell| Paper::cell_bits(cell).1).sum();
            bits as usize / 8
        }
    }
    WritesNothing {
        fn write_packed(_cells: &Cells, _out: &mut [u8]) {}
    }
    LastByteNotWritten {
        fn write_packed(cells: &Cells, out: &mut [u8]) {
            if let Some((last, _)) = out.split_last_mut() {
                let before = *last;
                Paper::write_packed(cells, out);
                out[out.len() - 1] = before;
            }
        }
    }
    JustEnoughSpaceRefused {
        fn pack(cells: &Cells, out: &mut [u8]) -> Result<usize, Refusal> {
            let space = out.len().saturating_sub(1);
            Paper::pack(cells, &mut out[..space])
        }
    }
    AlwaysTooLittleSpace {
        fn pack(_cells: &Cells, _out: &mut [u8]) -> Result<usize, Refusal> {
            Err(Refusal { number: 5, cell: 0 })
        }
    }
    SpaceForTheLongestDemanded {
        fn pack(cells: &Cells, out: &mut [u8]) -> Result<usize, Refusal> {
            if out.len() < PACKED_BYTES { Err(Refusal { number: 5, cell: 0 }) } else { Paper::pack(cells, out) }
        }
    }
    SpaceBeforeTheRow {
        fn pack_bytes(row: &[u8], out: &mut [u8]) -> u64 {
            if out.len() < CELLS.div_ceil(8) { 5000 } else { Paper::pack_bytes(row, out) }
        }
    }
    TooLittleSpaceFilled {
        fn pack(cells: &Cells, out: &mut [u8]) -> Result<usize, Refusal> {
            let mut whole = [0; PACKED_BYTES];
            Paper::pack(cells, &mut whole)?;
            let held = out.len().min(Paper::packed_length(cells));
            out[..held].copy_from_slice(&whole[..held]);
            Paper::pack(cells, out)
        }
    }
    RestCleared {
        fn pack(cells: &Cells, out: &mut [u8]) -> Result<usize, Refusal> {
            let length = Paper::pack(cells, out)?;
            out[length..].fill(0);
            Ok(length)
        }
    }
    ByteAfterTheRowCleared {
        fn pack(cells: &Cells, out: &mut [u8]) -> Result<usize, Refusal> {
            let length = Paper::pack(cells, out)?;
            out[length..].iter_mut().take(1).for_each(|byte| *byte = 0);
            Ok(length)
        }
    }
    SpaceReturned {
        fn pack(cells: &Cells, out: &mut [u8]) -> Result<usize, Refusal> {
            Paper::pack(cells, out).map(|_| out.len())
        }
    }
    BitsReturned {
        fn pack(cells: &Cells, out: &mut [u8]) -> Result<usize, Refusal> {
            Paper::pack(cells, out).map(|length| 8 * length)
        }
    }
    OnlyJudgedRowsPacked {
        fn pack(cells: &Cells, out: &mut [u8]) -> Result<usize, Refusal> {
            Paper::check_row(cells)?;
            Paper::pack(cells, out)
        }
    }
    ValuesOf32BitsAtMost {
        fn refuse_unpackable(cells: &Cells) -> Result<(), Refusal> {
            match cells.iter().position(|cell| cell.is_some_and(|value| value >> 32 != 0)) {
                Some(at) => Err(Refusal { number: 4, cell: at as u32 + 1 }),
                None => Ok(()),
            }
        }
    }
}

/// Moves all bits one place towards the end, a zero before them.
fn shift_right(bytes: &mut [u8]) {
    let mut carried = 0;
    for byte in bytes {
        let last = *byte << 7;
        *byte = *byte >> 1 | carried;
        carried = last;
    }
}
