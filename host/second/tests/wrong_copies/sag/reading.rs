//! Wrong copies of reading the host's sag, where its row is read rightly.
use lvl_addin::answer::Refusal;
use lvl_addin::sag::SAG_BYTES;
use lvl_second::sag::{Sag, SagRead};
use lvl_second::sags::bytes_of;
use lvl_second::{Paper, SagRules};

/// Some sag that is taken.
const USUAL: Sag = Sag {
    span: 6000,
    moment: 10_000_000,
    limit: 200,
};

/// The right reading, once each cell is changed.
fn read_changed(sag: &[u8], change: impl Fn(&mut [u8])) -> Result<SagRead, Refusal> {
    let mut sag = sag.to_vec();
    sag.chunks_exact_mut(9).for_each(change);
    Paper::read_sag_cells(&sag)
}

/// The right reading, once each filled cell's float is changed.
fn floats_changed(sag: &[u8], change: impl Fn(f64) -> f64) -> Result<SagRead, Refusal> {
    read_changed(sag, |cell| {
        if cell[0] == 1 {
            let float = f64::from_le_bytes(cell[1..].try_into().expect("eight bytes"));
            cell[1..].copy_from_slice(&change(float).to_le_bytes());
        }
    })
}

/// The reading of a sag that is cut off, with the usual one's bytes after it, where its length is this.
fn completed(sag: &[u8], length: usize) -> Result<SagRead, Refusal> {
    if sag.len() == length {
        Paper::read_sag_cells(&[sag, &bytes_of(&USUAL)[length..]].concat())
    } else {
        Paper::read_sag_cells(sag)
    }
}

/// The reading of the beginning of a longer sag.
fn beginning(sag: &[u8], taken: impl Fn(usize) -> bool) -> Result<SagRead, Refusal> {
    let longer = sag.len() > SAG_BYTES && taken(sag.len());
    Paper::read_sag_cells(if longer { &sag[..SAG_BYTES] } else { sag })
}

/// The right reading, with another refusal of a length.
fn length_as(sag: &[u8], refusal: Refusal) -> Result<SagRead, Refusal> {
    Paper::read_sag_cells(sag).map_err(|_| refusal)
}

wrong_copies! { SagRules, Sagging:
    FractionsCutOff {
        fn read_sag_cells(sag: &[u8]) -> Result<SagRead, Refusal> {
            floats_changed(sag, f64::trunc)
        }
    }
    HalvesRounded {
        fn read_sag_cells(sag: &[u8]) -> Result<SagRead, Refusal> {
            floats_changed(sag, |float| if float.fract() == 0.5 { float.round() } else { float })
        }
    }
    JustAboveTakenAsWhole {
        fn read_sag_cells(sag: &[u8]) -> Result<SagRead, Refusal> {
            floats_changed(sag, |float| f64::from_bits(float.to_bits() & !1))
        }
    }
    NegativesWithoutSign {
        fn read_sag_cells(sag: &[u8]) -> Result<SagRead, Refusal> {
            floats_changed(sag, f64::abs)
        }
    }
    NegativesAsOne {
        fn read_sag_cells(sag: &[u8]) -> Result<SagRead, Refusal> {
            floats_changed(sag, |float| if float < 0.0 { 1.0 } else { float })
        }
    }
    NumbersIn34Bits {
        fn read_sag_cells(sag: &[u8]) -> Result<SagRead, Refusal> {
            floats_changed(sag, |float| if float < 9e15 { float % 17_179_869_184.0 } else { float })
        }
    }
    NumbersIn32Bits {
        fn read_sag_cells(sag: &[u8]) -> Result<SagRead, Refusal> {
            floats_changed(sag, |float| if float < 9e15 { float % 4_294_967_296.0 } else { float })
        }
    }
    ShortFloats {
        fn read_sag_cells(sag: &[u8]) -> Result<SagRead, Refusal> {
            floats_changed(sag, |float| f64::from(float as f32))
        }
    }
    GreatNumbersAsTheGreatestMoment {
        fn read_sag_cells(sag: &[u8]) -> Result<SagRead, Refusal> {
            floats_changed(sag, |float| if float > 1e10 { 1e10 } else { float })
        }
    }
    InfinityAsTheGreatestMoment {
        fn read_sag_cells(sag: &[u8]) -> Result<SagRead, Refusal> {
            floats_changed(sag, |float| if float == f64::INFINITY { 1e10 } else { float })
        }
    }
    NanAsOne {
        fn read_sag_cells(sag: &[u8]) -> Result<SagRead, Refusal> {
            floats_changed(sag, |float| if float.is_nan() { 1.0 } else { float })
        }
    }
    AnyFirstByteButZeroFilled {
        fn read_sag_cells(sag: &[u8]) -> Result<SagRead, Refusal> {
            read_changed(sag, |cell| cell[0] = cell[0].min(1))
        }
    }
    FirstByteTwoFilled {
        fn read_sag_cells(sag: &[u8]) -> Result<SagRead, Refusal> {
            read_changed(sag, |cell| if cell[0] == 2 { cell[0] = 1 })
        }
    }
    GreatestFirstByteFilled {
        fn read_sag_cells(sag: &[u8]) -> Result<SagRead, Refusal> {
            read_changed(sag, |cell| if cell[0] == 255 { cell[0] = 1 })
        }
    }
    LowestBitOfFirstByte {
        fn read_sag_cells(sag: &[u8]) -> Result<SagRead, Refusal> {
            read_changed(sag, |cell| cell[0] &= 1)
        }
    }
    FirstByteNotTested {
        fn read_sag_cells(sag: &[u8]) -> Result<SagRead, Refusal> {
            read_changed(sag, |cell| cell[0] = 1)
        }
    }
    BlanksWithBitsFilled {
        fn read_sag_cells(sag: &[u8]) -> Result<SagRead, Refusal> {
            read_changed(sag, |cell| if cell[0] == 0 { cell[0] = 1 })
        }
    }
    FilledAndBlankExchanged {
        fn read_sag_cells(sag: &[u8]) -> Result<SagRead, Refusal> {
            read_changed(sag, |cell| if cell[0] < 2 { cell[0] = 1 - cell[0] })
        }
    }
    HighestByteFirst {
        fn read_sag_cells(sag: &[u8]) -> Result<SagRead, Refusal> {
            read_changed(sag, |cell| cell[1..].reverse())
        }
    }
    FirstByteAfterTheFloat {
        fn read_sag_cells(sag: &[u8]) -> Result<SagRead, Refusal> {
            read_changed(sag, |cell| cell.rotate_right(1))
        }
    }
    CellsFromTheLast {
        fn read_sag_cells(sag: &[u8]) -> Result<SagRead, Refusal> {
            Paper::read_sag_cells(sag).map(|[span, moment, limit]| [limit, moment, span])
        }
    }
    CellsFromTheSecond {
        fn read_sag_cells(sag: &[u8]) -> Result<SagRead, Refusal> {
            Paper::read_sag_cells(sag).map(|[span, moment, limit]| [moment, limit, span])
        }
    }
    CellsAfterTheFirst {
        fn read_sag_cells(sag: &[u8]) -> Result<SagRead, Refusal> {
            Paper::read_sag_cells(sag).map(|[span, moment, limit]| [limit, span, moment])
        }
    }
    SpanForTheLimit {
        fn read_sag_cells(sag: &[u8]) -> Result<SagRead, Refusal> {
            Paper::read_sag_cells(sag).map(|[span, moment, _]| [span, moment, span])
        }
    }
    LongerSagsTaken {
        fn read_sag_cells(sag: &[u8]) -> Result<SagRead, Refusal> {
            beginning(sag, |_| true)
        }
    }
    OneLongTaken {
        fn read_sag_cells(sag: &[u8]) -> Result<SagRead, Refusal> {
            beginning(sag, |length| length == SAG_BYTES + 1)
        }
    }
    OneCellMoreTaken {
        fn read_sag_cells(sag: &[u8]) -> Result<SagRead, Refusal> {
            beginning(sag, |length| length == SAG_BYTES + 9)
        }
    }
    WholeCellsTaken {
        fn read_sag_cells(sag: &[u8]) -> Result<SagRead, Refusal> {
            beginning(sag, |length| length % 9 == 0)
        }
    }
    TwoSagsTaken {
        fn read_sag_cells(sag: &[u8]) -> Result<SagRead, Refusal> {
            beginning(sag, |length| length == 2 * SAG_BYTES)
        }
    }
    OneShortTaken {
        fn read_sag_cells(sag: &[u8]) -> Result<SagRead, Refusal> {
            completed(sag, SAG_BYTES - 1)
        }
    }
    LimitLeftOutTaken {
        fn read_sag_cells(sag: &[u8]) -> Result<SagRead, Refusal> {
            completed(sag, 18)
        }
    }
    SpanAloneTaken {
        fn read_sag_cells(sag: &[u8]) -> Result<SagRead, Refusal> {
            completed(sag, 9)
        }
    }
    NoSagTaken {
        fn read_sag_cells(sag: &[u8]) -> Result<SagRead, Refusal> {
            completed(sag, 0)
        }
    }
    CellsWithoutFirstBytesTaken {
        fn read_sag_cells(sag: &[u8]) -> Result<SagRead, Refusal> {
            if sag.len() == 24 { Paper::read_sag_cells(&bytes_of(&USUAL)) } else { Paper::read_sag_cells(sag) }
        }
    }
    LengthAsRefusal1 {
        fn read_sag_cells(sag: &[u8]) -> Result<SagRead, Refusal> {
            length_as(sag, Refusal { number: 1, cell: 0 })
        }
    }
    LengthAsRefusal5 {
        fn read_sag_cells(sag: &[u8]) -> Result<SagRead, Refusal> {
            length_as(sag, Refusal { number: 5, cell: 0 })
        }
    }
    LengthAsRefusal6 {
        fn read_sag_cells(sag: &[u8]) -> Result<SagRead, Refusal> {
            length_as(sag, Refusal { number: 6, cell: 0 })
        }
    }
    LengthTold {
        fn read_sag_cells(sag: &[u8]) -> Result<SagRead, Refusal> {
            length_as(sag, Refusal { number: 10, cell: sag.len() as u32 })
        }
    }
    FirstMissingCellNamed {
        fn read_sag_cells(sag: &[u8]) -> Result<SagRead, Refusal> {
            length_as(sag, Refusal { number: 10, cell: sag.len() as u32 / 9 + 1 })
        }
    }
}
