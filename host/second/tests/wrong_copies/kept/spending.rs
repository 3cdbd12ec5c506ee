//! Wrong copies that only a schedule shows which spends the numbers.
use lvl_addin::answer::Refusal;
use lvl_addin::row::ROW_BYTES;
use lvl_second::kept::{FIRST_NUMBER, LAST_NUMBER};
use lvl_second::{Answered, Call, Cells, Kept, KeptRules, Paper, Rules};

type Row = [u8; ROW_BYTES];

/// Adds a row; where the numbers are spent, this gives the next one.
fn going_on(kept: &mut Kept, row: &Row, next: impl Fn(&Kept) -> u32) -> Result<u32, Refusal> {
    Paper::accepted_row(row)?;
    if Paper::numbers_are_spent(kept) {
        kept.next = next(kept);
    }
    Paper::add(kept, row)
}

/// Adds a row. Where the numbers are spent, that is told once this much of the row is judged.
fn spent_after<T>(
    kept: &mut Kept,
    row: &Row,
    so_far: impl Fn(&Row) -> Result<T, Refusal>,
) -> Result<u32, Refusal> {
    so_far(row)?;
    if Paper::numbers_are_spent(kept) {
        return Err(Paper::full_refusal());
    }
    Paper::add(kept, row)
}

/// Adds a row, refused in another way where there is room and no number.
fn spent_as(kept: &mut Kept, row: &Row, refusal: Refusal) -> Result<u32, Refusal> {
    let is_full = Paper::is_full(kept);
    Paper::add(kept, row).map_err(|found| match found.number {
        11 if !is_full => refusal,
        _ => found,
    })
}

/// Holds a row under the next number in so many bits.
fn take_in_bits(bits: u32, kept: &mut Kept, cells: Cells) -> u32 {
    kept.next %= 1 << bits;
    Paper::take_in(kept, cells)
}

wrong_copies! { KeptRules, SpendingNumbers:
    LastNumber999999 {
        fn last_kept_number() -> u32 {
            999_999
        }
    }
    LastNumber1000001 {
        fn last_kept_number() -> u32 {
            1_000_001
        }
    }
    LastNumberOf20Bits {
        fn last_kept_number() -> u32 {
            (1 << 20) - 1
        }
    }
    LastNumberOf16Bits {
        fn last_kept_number() -> u32 {
            (1 << 16) - 1
        }
    }
    NumbersWithoutEnd {
        fn numbers_are_spent(_kept: &Kept) -> bool {
            false
        }
    }
    NumbersOf16Bits {
        fn take_in(kept: &mut Kept, cells: Cells) -> u32 {
            take_in_bits(16, kept, cells)
        }
    }
    NumbersOf19Bits {
        fn take_in(kept: &mut Kept, cells: Cells) -> u32 {
            take_in_bits(19, kept, cells)
        }
    }
    NumbersRemovedIn16Bits {
        fn place_of(kept: &Kept, number: u32) -> Option<usize> {
            Paper::place_of(kept, number % (1 << 16))
        }
    }
    SpentOnlyWhereFull {
        fn refuse_without_room(kept: &Kept) -> Result<(), Refusal> {
            if Paper::is_full(kept) { Err(Paper::full_refusal()) } else { Ok(()) }
        }
    }
    FullOnlyWhereSpent {
        fn refuse_without_room(kept: &Kept) -> Result<(), Refusal> {
            if Paper::numbers_are_spent(kept) { Err(Paper::full_refusal()) } else { Ok(()) }
        }
    }
    SpentOnlyWhereRowsAreHeld {
        fn numbers_are_spent(kept: &Kept) -> bool {
            Paper::numbers_are_spent(kept) && !kept.rows.is_empty()
        }
    }
    SpentOnlyWhereTheLastIsHeld {
        fn numbers_are_spent(kept: &Kept) -> bool {
            Paper::numbers_are_spent(kept) && Paper::place_of(kept, LAST_NUMBER).is_some()
        }
    }
    SpentStartsAgain {
        fn add(kept: &mut Kept, row: &Row) -> Result<u32, Refusal> {
            going_on(kept, row, |_| FIRST_NUMBER)
        }
    }
    SpentStartsAgainWhereNoneIsHeld {
        fn add(kept: &mut Kept, row: &Row) -> Result<u32, Refusal> {
            going_on(kept, row, |kept| if kept.rows.is_empty() { FIRST_NUMBER } else { kept.next })
        }
    }
    SpentGivesTheLastAgain {
        fn add(kept: &mut Kept, row: &Row) -> Result<u32, Refusal> {
            going_on(kept, row, |_| LAST_NUMBER)
        }
    }
    SpentGivesTheLastAgainWhereItIsGone {
        fn take_out(kept: &mut Kept, place: usize) {
            if kept.rows.remove(place).number == LAST_NUMBER {
                kept.next = LAST_NUMBER;
            }
        }
    }
    SpentGivesARemovedNumber {
        fn take_out(kept: &mut Kept, place: usize) {
            let number = kept.rows.remove(place).number;
            if Paper::numbers_are_spent(kept) {
                kept.next = number;
            }
        }
    }
    SpentAs12 {
        fn add(kept: &mut Kept, row: &Row) -> Result<u32, Refusal> {
            spent_as(kept, row, Paper::not_held_refusal())
        }
    }
    SpentNamesACell {
        fn add(kept: &mut Kept, row: &Row) -> Result<u32, Refusal> {
            spent_as(kept, row, Refusal { cell: 1, ..Paper::full_refusal() })
        }
    }
    SpentBeforeTheRow {
        fn add(kept: &mut Kept, row: &Row) -> Result<u32, Refusal> {
            spent_after(kept, row, |_| Ok(()))
        }
    }
    SpentBeforeTheCheck {
        fn add(kept: &mut Kept, row: &Row) -> Result<u32, Refusal> {
            spent_after(kept, row, |row| Paper::read_row(row))
        }
    }
    SpentBeforeFills {
        fn add(kept: &mut Kept, row: &Row) -> Result<u32, Refusal> {
            spent_after(kept, row, |row| Paper::kind_of(&Paper::read_row(row)?))
        }
    }
    SpentBeforeCodes {
        fn add(kept: &mut Kept, row: &Row) -> Result<u32, Refusal> {
            spent_after(kept, row, |row| {
                let cells = Paper::read_row(row)?;
                Paper::refuse_misfilled(Paper::kind_of(&cells)?, &cells)
            })
        }
    }
    SpentBeforeRanges {
        fn add(kept: &mut Kept, row: &Row) -> Result<u32, Refusal> {
            spent_after(kept, row, |row| {
                let cells = Paper::read_row(row)?;
                let kind = Paper::kind_of(&cells)?;
                Paper::refuse_misfilled(kind, &cells)?;
                Paper::codes(kind, &cells)
            })
        }
    }
    SpentEmpties {
        fn add(kept: &mut Kept, row: &Row) -> Result<u32, Refusal> {
            let added = Paper::add(kept, row);
            if Paper::numbers_are_spent(kept) && added.is_err() {
                kept.rows.clear();
            }
            added
        }
    }
    SpentRefusesRemovals {
        fn place_of(kept: &Kept, number: u32) -> Option<usize> {
            Paper::place_of(kept, number).filter(|_| !Paper::numbers_are_spent(kept))
        }
    }
    LastNumberNotRemoved {
        fn place_of(kept: &Kept, number: u32) -> Option<usize> {
            Paper::place_of(kept, number).filter(|_| number != LAST_NUMBER)
        }
    }
    NumberAfterTheLastAccepted {
        fn remove(kept: &mut Kept, number: u32) -> Result<(), Refusal> {
            match Paper::remove(kept, number) {
                Err(_) if number == LAST_NUMBER + 1 && Paper::numbers_are_spent(kept) => Ok(()),
                removed => removed,
            }
        }
    }
    SpentHasNoneGoverning {
        fn answer_call(kept: &mut Kept, call: &Call) -> Answered {
            let right = Paper::answer_call(kept, call);
            Answered { governing: right.governing.filter(|_| !Paper::numbers_are_spent(kept)), ..right }
        }
    }
    /// Moves the next number wherever an add is refused after the last one, too, and so far that it comes round.
    SpentComesRound {
        fn add(kept: &mut Kept, row: &Row) -> Result<u32, Refusal> {
            let added = Paper::add(kept, row);
            if Paper::numbers_are_spent(kept) {
                kept.next = (kept.next + 1) % (LAST_NUMBER + 100);
            }
            added
        }
    }
}
