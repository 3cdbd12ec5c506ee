//! Wrong copies of the refusals and their order.
use lvl_addin::answer::Refusal;
use lvl_addin::row::CELLS;
use lvl_second::cells::*;
use lvl_second::{Paper, Rules};

fn refusal(number: u32, cell: usize) -> Refusal {
    Refusal {
        number,
        cell: cell as u32,
    }
}

/// The cells that are blank or filled against their kind.
fn misfilled(kind: Kind, cells: &Cells) -> impl Iterator<Item = usize> + '_ {
    let begun = Paper::joint_begun(kind, cells);
    (1..=CELLS).filter(move |&number| {
        cell(cells, number).is_some() != Paper::must_be_filled(kind, number, begun)
    })
}

/// Refusal 2 for a cell, if there is one.
fn refuse(misfilled: Option<usize>) -> Result<(), Refusal> {
    misfilled.map_or(Ok(()), |number| Err(refusal(2, number)))
}

/// The highest cell that a rule refuses, found by mending it from below.
fn highest(
    refuse: impl Fn(&Cells) -> Result<(), Refusal>,
    cells: &Cells,
    mend: impl Fn(usize) -> Option<u64>,
) -> Result<(), Refusal> {
    let mut mended = *cells;
    let mut last = Ok(());
    while let Err(found) = refuse(&mended) {
        mended[found.cell as usize - 1] = mend(found.cell as usize);
        last = Err(found);
    }
    last
}

wrong_copies! { Rules, Checking:
    BlankKindUnknown {
        fn kind_of(cells: &Cells) -> Result<Kind, Refusal> {
            Paper::kind_of(cells).map_err(|_| refusal(3, KIND))
        }
    }
    UnknownKindMisfilled {
        fn kind_of(cells: &Cells) -> Result<Kind, Refusal> {
            Paper::kind_of(cells).map_err(|_| refusal(2, KIND))
        }
    }
    UnknownKindOutsideRange {
        fn kind_of(cells: &Cells) -> Result<Kind, Refusal> {
            Paper::kind_of(cells).map_err(|found| refusal(if found.number == 3 { 4 } else { 2 }, KIND))
        }
    }
    /// Names a blank cell of the first seven before an unknown kind.
    BlanksBeforeUnknownKind {
        fn kind_of(cells: &Cells) -> Result<Kind, Refusal> {
            let blank = (GRADE..=HEIGHT).find(|&number| cell(cells, number).is_none());
            Paper::kind_of(cells).map_err(|found| match blank {
                Some(number) if found.number == 3 => refusal(2, number),
                _ => found,
            })
        }
    }
    CodesBeforeFills {
        fn accept(cells: &Cells) -> Result<Member, Refusal> {
            let accepted = Paper::accept(cells);
            let filled = [GRADE, REGIME, TABLE_16_ROW].iter().all(|&number| cell(cells, number).is_some());
            match Paper::kind_of(cells) {
                Ok(kind) if filled => Paper::codes(kind, cells).and(accepted),
                _ => accepted,
            }
        }
    }
    RangesBeforeFills {
        fn accept(cells: &Cells) -> Result<Member, Refusal> {
            Paper::kind_of(cells)?;
            Paper::refuse_outside_range(cells)?;
            Paper::accept(cells)
        }
    }
    RangesBeforeCodes {
        fn accept(cells: &Cells) -> Result<Member, Refusal> {
            let kind = Paper::kind_of(cells)?;
            Paper::refuse_misfilled(kind, cells)?;
            Paper::refuse_outside_range(cells)?;
            Paper::accept(cells)
        }
    }
    RangesBeforeKind {
        fn accept(cells: &Cells) -> Result<Member, Refusal> {
            Paper::refuse_outside_range(cells)?;
            Paper::accept(cells)
        }
    }
    HighestMisfilled {
        fn refuse_misfilled(kind: Kind, cells: &Cells) -> Result<(), Refusal> {
            refuse(misfilled(kind, cells).last())
        }
    }
    HighestUnknownCode {
        fn codes(kind: Kind, cells: &Cells) -> Result<Codes, Refusal> {
            let known = |cells: &Cells| Paper::codes(kind, cells).map(|_| ());
            let row = if matches!(kind, Kind::Compression | Kind::CompressionWithBending) { 1 } else { 4 };
            highest(known, cells, |number| Some(if number == TABLE_16_ROW { row } else { 1 }))?;
            Paper::codes(kind, cells)
        }
    }
    HighestOutsideRange {
        fn refuse_outside_range(cells: &Cells) -> Result<(), Refusal> {
            highest(Paper::refuse_outside_range, cells, |number| Paper::range(number).map(|range| *range.start()))
        }
    }
    MisfilledJointFirst {
        fn refuse_misfilled(kind: Kind, cells: &Cells) -> Result<(), Refusal> {
            refuse(misfilled(kind, cells).find(|number| (FIRST_OF_JOINT..=LAST_OF_JOINT).contains(number)))?;
            Paper::refuse_misfilled(kind, cells)
        }
    }
    FilledBeforeBlank {
        fn refuse_misfilled(kind: Kind, cells: &Cells) -> Result<(), Refusal> {
            refuse(misfilled(kind, cells).find(|&number| cell(cells, number).is_some()))?;
            Paper::refuse_misfilled(kind, cells)
        }
    }
    JointBegunByItsFirstCell {
        fn joint_begun(kind: Kind, cells: &Cells) -> bool {
            Paper::joint_begun(kind, cells) && cell(cells, FIRST_OF_JOINT).is_some()
        }
    }
    JointBegunByItsCoefficients {
        fn joint_begun(kind: Kind, cells: &Cells) -> bool {
            Paper::joint_begun(kind, cells) && cell(cells, KC).is_some()
        }
    }
    JointOnlyWhenWhole {
        fn joint_begun(kind: Kind, cells: &Cells) -> bool {
            Paper::joint_begun(kind, cells) && (FIRST_OF_JOINT..=LAST_OF_JOINT).all(|number| cell(cells, number).is_some())
        }
    }
    JointAlwaysInTies {
        fn joint_begun(kind: Kind, _cells: &Cells) -> bool {
            kind == Kind::Tension
        }
    }
    JointInBentTies {
        fn joint_begun(kind: Kind, cells: &Cells) -> bool {
            let tie = matches!(kind, Kind::Tension | Kind::TensionWithBending);
            Paper::joint_begun(if tie { Kind::Tension } else { kind }, cells)
        }
    }
    JointInEveryKind {
        fn joint_begun(_kind: Kind, cells: &Cells) -> bool {
            Paper::joint_begun(Kind::Tension, cells)
        }
    }
    Row4WithoutLengthAcrossB {
        fn refuse_misfilled(kind: Kind, cells: &Cells) -> Result<(), Refusal> {
            let mut cells = *cells;
            if cell(&cells, TABLE_16_ROW) == Some(4) {
                cells[LENGTH_B - 1] = Some(100);
            }
            Paper::refuse_misfilled(kind, &cells)
        }
    }
    Row4WithAnyLengthAcrossB {
        fn refuse_outside_range(cells: &Cells) -> Result<(), Refusal> {
            let mut cells = *cells;
            if cell(&cells, TABLE_16_ROW) == Some(4) {
                cells[LENGTH_B - 1] = Some(100);
            }
            Paper::refuse_outside_range(&cells)
        }
    }
    EveryRowOfTable16 {
        fn knows_table_16_row(_kind: Kind, row: u64) -> bool {
            (1..=5).contains(&row)
        }
    }
    RowOfTheOtherKindOutsideRange {
        fn codes(kind: Kind, cells: &Cells) -> Result<Codes, Refusal> {
            Paper::codes(kind, cells).map_err(|found| match cell(cells, TABLE_16_ROW) {
                Some(1..=5) if found.cell == TABLE_16_ROW as u32 => refusal(4, TABLE_16_ROW),
                _ => found,
            })
        }
    }
    UnknownCodesOutsideRange {
        fn codes(kind: Kind, cells: &Cells) -> Result<Codes, Refusal> {
            Paper::codes(kind, cells).map_err(|found| refusal(4, found.cell as usize))
        }
    }
    OutsideRangeNamesNoCell {
        fn refuse_outside_range(cells: &Cells) -> Result<(), Refusal> {
            Paper::refuse_outside_range(cells).map_err(|_| refusal(4, 0))
        }
    }
    RangesNotTested {
        fn refuse_outside_range(_cells: &Cells) -> Result<(), Refusal> {
            Ok(())
        }
    }
}
