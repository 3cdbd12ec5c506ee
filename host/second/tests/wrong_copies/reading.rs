//! Wrong copies of reading the host's row.
use lvl_addin::answer::Refusal;
use lvl_addin::row::{CELLS, ROW_BYTES};
use lvl_second::{Cells, Paper, Rules};

/// Reads a row as document 01 does, once its bytes are changed.
fn read_changed(row: &[u8], change: impl Fn(&mut [u8])) -> Result<Cells, Refusal> {
    let mut row = row.to_vec();
    row.chunks_exact_mut(9).for_each(change);
    Paper::read_row(&row)
}

/// The bits of a float's cell as document 01 reads them.
fn float(bits: u64) -> f64 {
    f64::from_bits(bits)
}

wrong_copies! { Rules, Checking:
    NegativeZeroRefused {
        fn whole_number(bits: u64) -> Option<u64> {
            Paper::whole_number(bits).filter(|_| bits >> 63 == 0)
        }
    }
    TwoToThe34Accepted {
        fn whole_number(bits: u64) -> Option<u64> {
            if float(bits) == 17_179_869_184.0 { Some(1 << 34) } else { Paper::whole_number(bits) }
        }
    }
    TwoToThe34LessOneRefused {
        fn whole_number(bits: u64) -> Option<u64> {
            Paper::whole_number(bits).filter(|&whole| whole != (1 << 34) - 1)
        }
    }
    AllWholeNumbersOf53Bits {
        fn whole_number(bits: u64) -> Option<u64> {
            let float = float(bits);
            (float >= 0.0 && float.fract() == 0.0 && float < 9e15).then_some(float as u64)
        }
    }
    FractionsCutOff {
        fn whole_number(bits: u64) -> Option<u64> {
            let float = float(bits);
            Paper::whole_number(if float > 0.0 { float.trunc().to_bits() } else { bits })
        }
    }
    HalvesRounded {
        fn whole_number(bits: u64) -> Option<u64> {
            let float = float(bits);
            Paper::whole_number(if float.fract() == 0.5 { float.round().to_bits() } else { bits })
        }
    }
    SmallFractionsAsZero {
        fn whole_number(bits: u64) -> Option<u64> {
            if float(bits).is_subnormal() { Some(0) } else { Paper::whole_number(bits) }
        }
    }
    JustAboveTakenAsWhole {
        fn whole_number(bits: u64) -> Option<u64> {
            Paper::whole_number(bits & !1)
        }
    }
    NegativesWithoutSign {
        fn whole_number(bits: u64) -> Option<u64> {
            Paper::whole_number(bits & !(1 << 63))
        }
    }
    NegativesAsZero {
        fn whole_number(bits: u64) -> Option<u64> {
            if float(bits) < 0.0 { Some(0) } else { Paper::whole_number(bits) }
        }
    }
    QuietNanAsZero {
        fn whole_number(bits: u64) -> Option<u64> {
            if float(bits).is_nan() && bits & 1 << 51 != 0 { Some(0) } else { Paper::whole_number(bits) }
        }
    }
    SignallingNanAsZero {
        fn whole_number(bits: u64) -> Option<u64> {
            if float(bits).is_nan() && bits & 1 << 51 == 0 { Some(0) } else { Paper::whole_number(bits) }
        }
    }
    InfinityAsGreatest {
        fn whole_number(bits: u64) -> Option<u64> {
            if float(bits) == f64::INFINITY { Some((1 << 34) - 1) } else { Paper::whole_number(bits) }
        }
    }
    FirstByteTwoFilled {
        fn read_cell(tag: u8, bits: u64) -> Option<Option<u64>> {
            Paper::read_cell(if tag == 2 { 1 } else { tag }, bits)
        }
    }
    FirstByteTwoBlank {
        fn read_cell(tag: u8, bits: u64) -> Option<Option<u64>> {
            Paper::read_cell(if tag == 2 { 0 } else { tag }, bits)
        }
    }
    AnyOtherFirstByteFilled {
        fn read_cell(tag: u8, bits: u64) -> Option<Option<u64>> {
            Paper::read_cell(tag.min(1), bits)
        }
    }
    AnyOtherFirstByteBlank {
        fn read_cell(tag: u8, bits: u64) -> Option<Option<u64>> {
            Paper::read_cell(if tag == 1 { 1 } else { 0 }, bits)
        }
    }
    LowestBitOfFirstByte {
        fn read_cell(tag: u8, bits: u64) -> Option<Option<u64>> {
            Paper::read_cell(tag & 1, bits)
        }
    }
    FilledAndBlankExchanged {
        fn read_cell(tag: u8, bits: u64) -> Option<Option<u64>> {
            Paper::read_cell(if tag < 2 { 1 - tag } else { tag }, bits)
        }
    }
    BlanksMustRead {
        fn read_cell(tag: u8, bits: u64) -> Option<Option<u64>> {
            Paper::whole_number(bits)?;
            Paper::read_cell(tag, bits)
        }
    }
    BlanksMustBeZero {
        fn read_cell(tag: u8, bits: u64) -> Option<Option<u64>> {
            if tag == 0 && bits != 0 { None } else { Paper::read_cell(tag, bits) }
        }
    }
    BlanksWithBitsFilled {
        fn read_cell(tag: u8, bits: u64) -> Option<Option<u64>> {
            Paper::read_cell(if bits != 0 && tag == 0 { 1 } else { tag }, bits)
        }
    }
    ZeroReadAsBlank {
        fn read_cell(tag: u8, bits: u64) -> Option<Option<u64>> {
            Paper::read_cell(tag, bits).map(|cell| cell.filter(|&value| value != 0))
        }
    }
    RowHighestByteFirst {
        fn float_bits(bytes: [u8; 8]) -> u64 {
            u64::from_be_bytes(bytes)
        }
    }
    FirstByteAfterTheFloat {
        fn read_row(row: &[u8]) -> Result<Cells, Refusal> {
            read_changed(row, |cell| cell.rotate_right(1))
        }
    }
    FirstBytesBeforeFloats {
        fn read_row(row: &[u8]) -> Result<Cells, Refusal> {
            let read = Paper::read_row(row);
            let other = |cell: &[u8]| cell[0] > 1;
            match row.chunks_exact(9).position(other) {
                Some(at) if row.len() == ROW_BYTES => Err(Refusal { number: 1, cell: at as u32 + 1 }),
                _ => read,
            }
        }
    }
    FloatsBeforeFirstBytes {
        fn read_row(row: &[u8]) -> Result<Cells, Refusal> {
            read_changed(row, |cell| if cell[0] > 1 { cell[0] = 0 }).and_then(|_| Paper::read_row(row))
        }
    }
    HighestUnreadable {
        fn read_row(row: &[u8]) -> Result<Cells, Refusal> {
            let unreadable = |cell: &[u8]| {
                let bits = u64::from_le_bytes(cell[1..].try_into().unwrap_or_default());
                Paper::read_cell(cell[0], bits).is_none()
            };
            match row.chunks_exact(9).rposition(unreadable) {
                Some(at) if row.len() == ROW_BYTES => Err(Refusal { number: 1, cell: at as u32 + 1 }),
                _ => Paper::read_row(row),
            }
        }
    }
    CellsCountedFromZero {
        fn read_row(row: &[u8]) -> Result<Cells, Refusal> {
            Paper::read_row(row).map_err(|found| Refusal { cell: found.cell.saturating_sub(1), ..found })
        }
    }
    LongerRowAccepted {
        fn read_row(row: &[u8]) -> Result<Cells, Refusal> {
            Paper::read_row(&row[..row.len().min(ROW_BYTES)])
        }
    }
    RowOneShortAccepted {
        fn read_row(row: &[u8]) -> Result<Cells, Refusal> {
            if row.len() == ROW_BYTES - 1 { Paper::read_row(&[row, &[0]].concat()) } else { Paper::read_row(row) }
        }
    }
    ShortRowNamesItsFirstMissingCell {
        fn read_row(row: &[u8]) -> Result<Cells, Refusal> {
            let short = row.len() < ROW_BYTES;
            let missing = row.len() as u32 / 9 + 1;
            Paper::read_row(row).map_err(|found| Refusal { cell: if short { missing } else { found.cell }, ..found })
        }
    }
    EmptyRowAsBlank {
        fn read_row(row: &[u8]) -> Result<Cells, Refusal> {
            if row.is_empty() { Ok([None; CELLS]) } else { Paper::read_row(row) }
        }
    }
}
