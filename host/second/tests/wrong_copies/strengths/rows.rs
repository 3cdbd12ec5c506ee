//! Wrong copies of which rows have strengths, and of how the others are refused.
use lvl_addin::answer::{Refusal, Verdict};
use lvl_addin::row::CELLS;
use lvl_second::cells::*;
use lvl_second::{Paper, Rules, StrengthRules};
use std::ops::RangeInclusive;

/// The member of a row once its cells are changed.
fn changed(row: &[u8], change: impl Fn(&mut Cells)) -> Result<Member, Refusal> {
    let mut cells = Paper::read_row(row)?;
    change(&mut cells);
    Paper::accept(&cells)
}

/// Cells that are not looked at where they are filled: each gets a value in range.
fn unminded(cells: &mut Cells, numbers: impl IntoIterator<Item = usize>) {
    for number in numbers {
        let least = Paper::range(number).map_or(1, |range| *range.start());
        cells[number - 1] = cells[number - 1].map(|_| least);
    }
}

/// Cells that are not looked at, filled or blank: each is as its kind wants it.
fn as_wanted(cells: &mut Cells, numbers: RangeInclusive<usize>) {
    let Ok(kind) = Paper::kind_of(cells) else {
        return;
    };
    let table_16_row = if Paper::knows_table_16_row(kind, 1) {
        1
    } else {
        4
    };
    for number in numbers {
        let least = Paper::range(number).map_or(table_16_row, |range| *range.start());
        cells[number - 1] = Paper::must_be_filled(kind, number, false).then_some(least);
    }
}

/// The member of a row, unless its verdict is of a sort.
fn refused_by_verdict(row: &[u8], is: impl Fn(&Verdict) -> bool) -> Result<Member, Refusal> {
    let member = Paper::unrefused(row)?;
    if is(&Paper::judge(&member)) {
        Err(Refusal { number: 4, cell: 0 })
    } else {
        Ok(member)
    }
}

/// The refusal of the material, if a material is all that a row has to have.
fn refused_by_material(cells: &Cells) -> Result<(), Refusal> {
    let mut rest = *cells;
    if Paper::kind_of(cells).is_err() {
        rest[KIND - 1] = Some(2);
    }
    as_wanted(&mut rest, WIDTH..=CELLS);
    Paper::accept(&rest).map(|_| ())
}

wrong_copies! { StrengthRules, GivingStrengths:
    RowsThatFailRefused {
        fn unrefused(row: &[u8]) -> Result<Member, Refusal> {
            refused_by_verdict(row, |verdict| !verdict.passes)
        }
    }
    RowsThatPassRefused {
        fn unrefused(row: &[u8]) -> Result<Member, Refusal> {
            refused_by_verdict(row, |verdict| verdict.passes)
        }
    }
    RowsThatFailAYesOrNoCheckRefused {
        fn unrefused(row: &[u8]) -> Result<Member, Refusal> {
            refused_by_verdict(row, |verdict| verdict.check <= 4)
        }
    }
    RowsWithAJointRefused {
        fn unrefused(row: &[u8]) -> Result<Member, Refusal> {
            refused_by_verdict(row, |verdict| verdict.count > 0)
        }
    }
    EveryRowRefused {
        fn unrefused(_row: &[u8]) -> Result<Member, Refusal> {
            Err(Refusal { number: 2, cell: 1 })
        }
    }
    SectionNotTested {
        fn unrefused(row: &[u8]) -> Result<Member, Refusal> {
            changed(row, |cells| unminded(cells, [WIDTH, HEIGHT]))
        }
    }
    ForcesNotTested {
        fn unrefused(row: &[u8]) -> Result<Member, Refusal> {
            changed(row, |cells| unminded(cells, [AXIAL, MOMENT, SHEAR]))
        }
    }
    LengthsNotTested {
        fn unrefused(row: &[u8]) -> Result<Member, Refusal> {
            changed(row, |cells| unminded(cells, [LENGTH_H, LENGTH_B]))
        }
    }
    JointNotTested {
        fn unrefused(row: &[u8]) -> Result<Member, Refusal> {
            changed(row, |cells| unminded(cells, FIRST_OF_JOINT..=LAST_OF_JOINT))
        }
    }
    JointNotLookedAt {
        fn unrefused(row: &[u8]) -> Result<Member, Refusal> {
            changed(row, |cells| as_wanted(cells, FIRST_OF_JOINT..=LAST_OF_JOINT))
        }
    }
    ForcesNotLookedAt {
        fn unrefused(row: &[u8]) -> Result<Member, Refusal> {
            changed(row, |cells| as_wanted(cells, AXIAL..=SHEAR))
        }
    }
    Table16NotLookedAt {
        fn unrefused(row: &[u8]) -> Result<Member, Refusal> {
            changed(row, |cells| as_wanted(cells, TABLE_16_ROW..=TABLE_16_ROW))
        }
    }
    OnlyTheMaterialLookedAt {
        fn unrefused(row: &[u8]) -> Result<Member, Refusal> {
            changed(row, |cells| as_wanted(cells, WIDTH..=CELLS))
        }
    }
    UnknownKindAsBending {
        fn unrefused(row: &[u8]) -> Result<Member, Refusal> {
            changed(row, |cells| {
                if Paper::kind_of(cells).is_err() {
                    cells[KIND - 1] = Some(2);
                }
            })
        }
    }
    /// Takes what does not read for blank, behind the material.
    OnlyTheMaterialRead {
        fn unrefused(row: &[u8]) -> Result<Member, Refusal> {
            let mut mended = row.to_vec();
            for cell in mended.chunks_exact_mut(9).skip(OFFICE_FACTOR) {
                let bits = u64::from_le_bytes(cell[1..].try_into().unwrap_or_default());
                if Paper::read_cell(cell[0], bits).is_none() {
                    cell.fill(0);
                }
            }
            Paper::unrefused(&mended)
        }
    }
    MaterialBeforeTheRest {
        fn unrefused(row: &[u8]) -> Result<Member, Refusal> {
            let cells = Paper::read_row(row)?;
            Paper::kind_of(&cells)?;
            refused_by_material(&cells)?;
            Paper::accept(&cells)
        }
    }
    MaterialBeforeTheKind {
        fn unrefused(row: &[u8]) -> Result<Member, Refusal> {
            let cells = Paper::read_row(row)?;
            refused_by_material(&cells)?;
            Paper::accept(&cells)
        }
    }
    RefusalsOfTheRowAs1 {
        fn unrefused(row: &[u8]) -> Result<Member, Refusal> {
            Paper::unrefused(row).map_err(|found| Refusal { number: 1, ..found })
        }
    }
    RefusalsOfTheRowAs8 {
        fn unrefused(row: &[u8]) -> Result<Member, Refusal> {
            Paper::unrefused(row).map_err(|_| Refusal { number: 8, cell: 0 })
        }
    }
}
