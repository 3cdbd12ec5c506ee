//! Wrong copies of unpacking and of the program `schedule`.
use lvl_addin::answer::{Refusal, Verdict};
use lvl_addin::row::CELLS;
use lvl_second::packing::Bits;
use lvl_second::{Cells, Paper};

type Judged = Result<Verdict, Refusal>;

/// The next cell, its value in this width.
fn value_of(width: u32, bits: &mut Bits) -> Option<Option<u64>> {
    match bits.take(1)? {
        0 => Some(None),
        _ => bits.take(width).map(Some),
    }
}

wrong_copies! { Rules, Scheduling:
    UnpackedValuesOf33Bits {
        fn take_cell(bits: &mut Bits) -> Option<Option<u64>> {
            value_of(33, bits)
        }
    }
    UnpackedValuesOf35Bits {
        fn take_cell(bits: &mut Bits) -> Option<Option<u64>> {
            value_of(35, bits)
        }
    }
    UnpackedLeastBitFirst {
        fn take_cell(bits: &mut Bits) -> Option<Option<u64>> {
            Paper::take_cell(bits).map(|cell| cell.map(|value| value.reverse_bits() >> 30))
        }
    }
    UnpackedFilledAndBlankExchanged {
        fn take_cell(bits: &mut Bits) -> Option<Option<u64>> {
            match bits.take(1)? {
                1 => Some(None),
                _ => bits.take(34).map(Some),
            }
        }
    }
    UnpackedZeroAsBlank {
        fn take_cell(bits: &mut Bits) -> Option<Option<u64>> {
            Paper::take_cell(bits).map(|cell| cell.filter(|&value| value != 0))
        }
    }
    /// Leaves a cell blank whose value the input does not hold, and names a later one.
    CutCellsTakenAsBlank {
        fn take_cell(bits: &mut Bits) -> Option<Option<u64>> {
            match bits.take(1)? {
                0 => Some(None),
                _ => Some(bits.take(34)),
            }
        }
    }
    CutOffNamesTheNextCell {
        fn cut_off(number: usize) -> Refusal {
            Paper::cut_off(number + 1)
        }
    }
    CutOffNamesTheCellBefore {
        fn cut_off(number: usize) -> Refusal {
            Paper::cut_off(number - 1)
        }
    }
    CutOffNamesNoCell {
        fn cut_off(_number: usize) -> Refusal {
            Paper::cut_off(0)
        }
    }
    CutOffIsSeven {
        fn cut_off(number: usize) -> Refusal {
            Refusal { number: 7, ..Paper::cut_off(number) }
        }
    }
    PaddingNotTested {
        fn spoils_padding(_padding: u64) -> bool {
            false
        }
    }
    LastPaddingBitOnlyTested {
        fn spoils_padding(padding: u64) -> bool {
            padding & 1 != 0
        }
    }
    LastPaddingBitNotTested {
        fn spoils_padding(padding: u64) -> bool {
            padding >> 1 != 0
        }
    }
    PaddingMustBeOnes {
        fn spoils_padding(padding: u64) -> bool {
            padding == 0
        }
    }
    PaddingNamesTheLastCell {
        fn unpack(input: &[u8]) -> Result<(Cells, usize), Refusal> {
            Paper::unpack(input).map_err(|found| match found.number {
                7 => Refusal { cell: CELLS as u32, ..found },
                _ => found,
            })
        }
    }
    RowsOfAtLeastFourBytes {
        fn unpack(input: &[u8]) -> Result<(Cells, usize), Refusal> {
            Paper::unpack(input).map(|(cells, length)| (cells, length.max(4).min(input.len())))
        }
    }
    NumberedFromZero {
        fn first_number() -> usize {
            0
        }
    }
    InputOneByteShorter {
        fn input_limit() -> usize {
            65_535
        }
    }
    InputOneByteLonger {
        fn input_limit() -> usize {
            65_537
        }
    }
    InputWithoutLimit {
        fn input_limit() -> usize {
            usize::MAX
        }
    }
    NoStopAfterSeven {
        fn next_row(input: &[u8]) -> (Judged, &[u8]) {
            match Paper::next_row(input) {
                (Err(found), _) if found.number == 7 => (Err(found), &input[1..]),
                row => row,
            }
        }
    }
    StopAfterTwo {
        fn next_row(input: &[u8]) -> (Judged, &[u8]) {
            match Paper::next_row(input) {
                (Err(found), _) if found.number == 2 => (Err(found), &[]),
                row => row,
            }
        }
    }
    StopAfterThree {
        fn next_row(input: &[u8]) -> (Judged, &[u8]) {
            match Paper::next_row(input) {
                (Err(found), _) if found.number == 3 => (Err(found), &[]),
                row => row,
            }
        }
    }
    StopAfterFour {
        fn next_row(input: &[u8]) -> (Judged, &[u8]) {
            match Paper::next_row(input) {
                (Err(found), _) if found.number == 4 => (Err(found), &[]),
                row => row,
            }
        }
    }
    StopAfterFail {
        fn next_row(input: &[u8]) -> (Judged, &[u8]) {
            match Paper::next_row(input) {
                (Ok(verdict), _) if !verdict.passes => (Ok(verdict), &[]),
                row => row,
            }
        }
    }
    OneByteSkippedAfterARow {
        fn next_row(input: &[u8]) -> (Judged, &[u8]) {
            let (judged, rest) = Paper::next_row(input);
            (judged, rest.get(1..).unwrap_or_default())
        }
    }
    CheckAndUtilisationExchanged {
        fn line(number: usize, judged: Judged) -> String {
            let exchange = |right: Verdict| Verdict { check: right.utilisation, utilisation: right.check, ..right };
            Paper::line(number, judged.map(exchange))
        }
    }
    UtilisationAndCountExchanged {
        fn line(number: usize, judged: Judged) -> String {
            let exchange = |right: Verdict| Verdict { count: right.utilisation, utilisation: right.count, ..right };
            Paper::line(number, judged.map(exchange))
        }
    }
    NumberAndCellOfRefusalExchanged {
        fn line(number: usize, judged: Judged) -> String {
            Paper::line(number, judged.map_err(|right| Refusal { number: right.cell, cell: right.number }))
        }
    }
    PassAndFailExchanged {
        fn line(number: usize, judged: Judged) -> String {
            Paper::line(number, judged.map(|right| Verdict { passes: !right.passes, ..right }))
        }
    }
    CountInvented {
        fn line(number: usize, judged: Judged) -> String {
            Paper::line(number, judged.map(|right| Verdict { count: number as u32, ..right }))
        }
    }
    CountLeftOutWhereZero {
        fn line(number: usize, judged: Judged) -> String {
            let line = Paper::line(number, judged);
            if judged.is_ok() { line.replace(" 0\n", "\n") } else { line }
        }
    }
    CutOffNotPrinted {
        fn line(number: usize, judged: Judged) -> String {
            if judged.is_err_and(|found| found.number == 6) { String::new() } else { Paper::line(number, judged) }
        }
    }
    RefusalsNotPrinted {
        fn line(number: usize, judged: Judged) -> String {
            judged.map_or(String::new(), |verdict| Paper::line(number, Ok(verdict)))
        }
    }
    NumberNotPrinted {
        fn line(number: usize, judged: Judged) -> String {
            Paper::line(number, judged).split_once(' ').map_or(String::new(), |(_, rest)| rest.into())
        }
    }
    TwoSpaces {
        fn line(number: usize, judged: Judged) -> String {
            Paper::line(number, judged).replace(' ', "  ")
        }
    }
    SpaceAtTheEnd {
        fn line(number: usize, judged: Judged) -> String {
            Paper::line(number, judged).replace('\n', " \n")
        }
    }
    CarriageReturns {
        fn line(number: usize, judged: Judged) -> String {
            Paper::line(number, judged).replace('\n', "\r\n")
        }
    }
    CapitalLetters {
        fn line(number: usize, judged: Judged) -> String {
            Paper::line(number, judged).to_uppercase()
        }
    }
    EndBetweenRowsPrinted {
        fn schedule(input: &[u8]) -> String {
            let text = Paper::schedule(input);
            let rows = text.lines().count();
            text + &Paper::line(rows + 1, Err(Paper::cut_off(1)))
        }
    }
    LastNewlineLeftOut {
        fn schedule(input: &[u8]) -> String {
            Paper::schedule(input).trim_end().into()
        }
    }
    FirstVerdictRepeated {
        fn schedule(input: &[u8]) -> String {
            let text = Paper::schedule(input);
            let first = text.lines().next().and_then(|line| line.split_once(' ')).map_or("", |(_, rest)| rest);
            (1..=text.lines().count()).map(|number| format!("{number} {first}\n")).collect()
        }
    }
    NothingPrinted {
        fn schedule(_input: &[u8]) -> String {
            String::new()
        }
    }
}
