//! Wrong copies of the numbers that adds return.
use lvl_addin::answer::Refusal;
use lvl_addin::row::ROW_BYTES;
use lvl_second::{Cells, Kept, KeptRules, Paper};

/// Holds a row under another number than the next.
fn take_in_as(kept: &mut Kept, cells: Cells, number: u32) -> u32 {
    kept.next = number;
    Paper::take_in(kept, cells)
}

fn is_held(kept: &Kept, number: u32) -> bool {
    Paper::place_of(kept, number).is_some()
}

/// Adds a row, and moves the next number if that is refused for a reason like this.
fn moved_if(
    kept: &mut Kept,
    row: &[u8; ROW_BYTES],
    is: impl Fn(Refusal) -> bool,
) -> Result<u32, Refusal> {
    let added = Paper::add(kept, row);
    if added.is_err_and(is) {
        kept.next += 1;
    }
    added
}

wrong_copies! { KeptRules, Keeping:
    NumbersFromZero {
        fn first_kept_number() -> u32 {
            0
        }
    }
    NumbersFromTwo {
        fn first_kept_number() -> u32 {
            2
        }
    }
    RemovedNumberGivenAgain {
        fn take_out(kept: &mut Kept, place: usize) {
            kept.next = kept.rows.remove(place).number;
        }
    }
    RemovedNumberGivenAgainIfItWasTheLast {
        fn take_out(kept: &mut Kept, place: usize) {
            let number = kept.rows.remove(place).number;
            if number + 1 == kept.next {
                kept.next = number;
            }
        }
    }
    LowestFreeNumberGiven {
        fn take_in(kept: &mut Kept, cells: Cells) -> u32 {
            let free = (1..).find(|&number| !is_held(kept, number));
            take_in_as(kept, cells, free.expect("few are held"))
        }
    }
    NumberOfRowsHeldGiven {
        fn take_in(kept: &mut Kept, cells: Cells) -> u32 {
            let rows = kept.rows.len() as u32;
            take_in_as(kept, cells, rows + 1)
        }
    }
    NumberAfterTheGreatestHeldGiven {
        fn take_in(kept: &mut Kept, cells: Cells) -> u32 {
            let greatest = kept.rows.iter().map(|held| held.number).max();
            take_in_as(kept, cells, greatest.unwrap_or(0) + 1)
        }
    }
    NextGoesBackByOneAfterARemoval {
        fn take_out(kept: &mut Kept, place: usize) {
            Paper::take_out(kept, place);
            kept.next -= 1;
        }
    }
    NextStartsAgainWhereNoneIsHeld {
        fn take_out(kept: &mut Kept, place: usize) {
            Paper::take_out(kept, place);
            if kept.rows.is_empty() {
                kept.next = 1;
            }
        }
    }
    NextMovedByARemoval {
        fn take_out(kept: &mut Kept, place: usize) {
            Paper::take_out(kept, place);
            kept.next += 1;
        }
    }
    NextMovedByARefusedAdd {
        fn add(kept: &mut Kept, row: &[u8; ROW_BYTES]) -> Result<u32, Refusal> {
            moved_if(kept, row, |_| true)
        }
    }
    NextMovedByARefusedRow {
        fn add(kept: &mut Kept, row: &[u8; ROW_BYTES]) -> Result<u32, Refusal> {
            moved_if(kept, row, |found| found.number != 11)
        }
    }
    NextMovedByAnUnreadableRow {
        fn add(kept: &mut Kept, row: &[u8; ROW_BYTES]) -> Result<u32, Refusal> {
            moved_if(kept, row, |found| found.number == 1)
        }
    }
    NextMovedByAnAddWithoutRoom {
        fn add(kept: &mut Kept, row: &[u8; ROW_BYTES]) -> Result<u32, Refusal> {
            moved_if(kept, row, |found| found.number == 11)
        }
    }
    NextMovedByARefusedRemoval {
        fn remove(kept: &mut Kept, number: u32) -> Result<(), Refusal> {
            let removed = Paper::remove(kept, number);
            kept.next += u32::from(removed.is_err());
            removed
        }
    }
    NextMovedByTwo {
        fn take_in(kept: &mut Kept, cells: Cells) -> u32 {
            let number = Paper::take_in(kept, cells);
            kept.next += 1;
            number
        }
    }
    NextNotMoved {
        fn take_in(kept: &mut Kept, cells: Cells) -> u32 {
            let number = Paper::take_in(kept, cells);
            kept.next = number;
            number
        }
    }
    NumberAfterItReturned {
        fn take_in(kept: &mut Kept, cells: Cells) -> u32 {
            Paper::take_in(kept, cells) + 1
        }
    }
    NumberBeforeItReturned {
        fn take_in(kept: &mut Kept, cells: Cells) -> u32 {
            Paper::take_in(kept, cells) - 1
        }
    }
    PlaceReturned {
        fn take_in(kept: &mut Kept, cells: Cells) -> u32 {
            Paper::take_in(kept, cells);
            kept.rows.len() as u32
        }
    }
    NumbersOf8Bits {
        fn take_in(kept: &mut Kept, cells: Cells) -> u32 {
            let next = kept.next;
            take_in_as(kept, cells, next % (1 << 8))
        }
    }
}
