//! Wrong copies of adding: how many rows are held, when an add is refused, and what it leaves.
use lvl_addin::answer::Refusal;
use lvl_addin::row::ROW_BYTES;
use lvl_second::{Cells, Kept, KeptRules, Paper, Rules};

type Row = [u8; ROW_BYTES];

/// Adds a row, room being tested before it is judged and after this much of it.
fn room_after<T>(
    kept: &mut Kept,
    row: &Row,
    so_far: impl Fn(&Row) -> Result<T, Refusal>,
) -> Result<u32, Refusal> {
    so_far(row)?;
    Paper::refuse_without_room(kept)?;
    Paper::add(kept, row)
}

/// Adds a row, and does this where that is refused for want of room.
fn on_11(kept: &mut Kept, row: &Row, after: impl Fn(&mut Kept)) -> Result<u32, Refusal> {
    let added = Paper::add(kept, row);
    if added == Err(Paper::full_refusal()) {
        after(kept);
    }
    added
}

/// Adds a row, and does this where that is refused for the row's sake.
fn on_its_own(kept: &mut Kept, row: &Row, after: impl Fn(&mut Kept)) -> Result<u32, Refusal> {
    let added = Paper::add(kept, row);
    if added.is_err_and(|found| found != Paper::full_refusal()) {
        after(kept);
    }
    added
}

/// Adds a row where there is room; where there is none, makes some first.
fn making_room(kept: &mut Kept, row: &Row, out: impl Fn(&Kept) -> usize) -> Result<u32, Refusal> {
    Paper::accepted_row(row)?;
    if Paper::is_full(kept) {
        let place = out(kept);
        Paper::take_out(kept, place);
    }
    Paper::add(kept, row)
}

wrong_copies! { KeptRules, Keeping:
    Holds63 {
        fn capacity() -> usize {
            63
        }
    }
    Holds65 {
        fn capacity() -> usize {
            65
        }
    }
    Holds32 {
        fn capacity() -> usize {
            32
        }
    }
    HoldsAnyNumber {
        fn capacity() -> usize {
            usize::MAX
        }
    }
    FullAfter64Adds {
        fn is_full(kept: &Kept) -> bool {
            kept.next > 64
        }
    }
    FullForGood {
        fn take_out(kept: &mut Kept, place: usize) {
            if !Paper::is_full(kept) {
                Paper::take_out(kept, place);
            }
        }
    }
    RoomBeforeTheRow {
        fn add(kept: &mut Kept, row: &Row) -> Result<u32, Refusal> {
            room_after(kept, row, |_| Ok(()))
        }
    }
    RoomBeforeTheKind {
        fn add(kept: &mut Kept, row: &Row) -> Result<u32, Refusal> {
            room_after(kept, row, |row| Paper::read_row(row))
        }
    }
    RoomBeforeFills {
        fn add(kept: &mut Kept, row: &Row) -> Result<u32, Refusal> {
            room_after(kept, row, |row| Paper::kind_of(&Paper::read_row(row)?))
        }
    }
    RoomBeforeCodes {
        fn add(kept: &mut Kept, row: &Row) -> Result<u32, Refusal> {
            room_after(kept, row, |row| {
                let cells = Paper::read_row(row)?;
                Paper::refuse_misfilled(Paper::kind_of(&cells)?, &cells)
            })
        }
    }
    RoomBeforeRanges {
        fn add(kept: &mut Kept, row: &Row) -> Result<u32, Refusal> {
            room_after(kept, row, |row| {
                let cells = Paper::read_row(row)?;
                let kind = Paper::kind_of(&cells)?;
                Paper::refuse_misfilled(kind, &cells)?;
                Paper::codes(kind, &cells)
            })
        }
    }
    FullAs12 {
        fn full_refusal() -> Refusal {
            Paper::not_held_refusal()
        }
    }
    FullAs10 {
        fn full_refusal() -> Refusal {
            Refusal { number: 10, cell: 0 }
        }
    }
    FullAs5 {
        fn full_refusal() -> Refusal {
            Refusal { number: 5, cell: 0 }
        }
    }
    FullNamesCell1 {
        fn full_refusal() -> Refusal {
            Refusal { cell: 1, ..Paper::full_refusal() }
        }
    }
    FullNamesTheCapacity {
        fn full_refusal() -> Refusal {
            Refusal { cell: 64, ..Paper::full_refusal() }
        }
    }
    FullTakesInAndRefuses {
        fn add(kept: &mut Kept, row: &Row) -> Result<u32, Refusal> {
            let cells = Paper::accepted_row(row)?;
            Paper::refuse_without_room(kept).inspect_err(|_| {
                Paper::take_in(kept, cells);
            })?;
            Ok(Paper::take_in(kept, cells))
        }
    }
    FullDropsTheFirst {
        fn add(kept: &mut Kept, row: &Row) -> Result<u32, Refusal> {
            making_room(kept, row, |_| 0)
        }
    }
    FullDropsTheLast {
        fn add(kept: &mut Kept, row: &Row) -> Result<u32, Refusal> {
            making_room(kept, row, |kept| kept.rows.len() - 1)
        }
    }
    FullDropsTheFirstAndRefuses {
        fn add(kept: &mut Kept, row: &Row) -> Result<u32, Refusal> {
            on_11(kept, row, |kept| Paper::take_out(kept, 0))
        }
    }
    FullDropsTheLastAndRefuses {
        fn add(kept: &mut Kept, row: &Row) -> Result<u32, Refusal> {
            on_11(kept, row, |kept| { kept.rows.pop(); })
        }
    }
    FullEmptiesAndRefuses {
        fn add(kept: &mut Kept, row: &Row) -> Result<u32, Refusal> {
            on_11(kept, row, |kept| kept.rows.clear())
        }
    }
    FullWritesOverTheLastAndRefuses {
        fn add(kept: &mut Kept, row: &Row) -> Result<u32, Refusal> {
            on_11(kept, row, |kept| {
                let cells = Paper::accepted_row(row).expect("the row is judged");
                kept.rows[63].cells = cells;
            })
        }
    }
    RefusedRowEmpties {
        fn add(kept: &mut Kept, row: &Row) -> Result<u32, Refusal> {
            on_its_own(kept, row, |kept| kept.rows.clear())
        }
    }
    RefusedRowDropsTheLast {
        fn add(kept: &mut Kept, row: &Row) -> Result<u32, Refusal> {
            on_its_own(kept, row, |kept| { kept.rows.pop(); })
        }
    }
    RefusedRowDropsTheFirst {
        fn add(kept: &mut Kept, row: &Row) -> Result<u32, Refusal> {
            on_its_own(kept, row, |kept| { kept.rows.drain(..kept.rows.len().min(1)); })
        }
    }
    RefusedRowAs11 {
        fn accepted_row(row: &Row) -> Result<Cells, Refusal> {
            Paper::accepted_row(row).map_err(|_| Paper::full_refusal())
        }
    }
    RefusedRowNotNamed {
        fn accepted_row(row: &Row) -> Result<Cells, Refusal> {
            Paper::accepted_row(row).map_err(|found| Refusal { cell: 0, ..found })
        }
    }
    RowsTakenAsTheyRead {
        fn accepted_row(row: &Row) -> Result<Cells, Refusal> {
            Paper::read_row(row)
        }
    }
    FailingRowsNotTaken {
        fn accepted_row(row: &Row) -> Result<Cells, Refusal> {
            let cells = Paper::accepted_row(row)?;
            if Paper::check_row(&cells)?.passes { Ok(cells) } else { Err(Paper::full_refusal()) }
        }
    }
    YesOrNoFailsNotTaken {
        fn accepted_row(row: &Row) -> Result<Cells, Refusal> {
            let cells = Paper::accepted_row(row)?;
            let fails = Paper::fails_yes_or_no(&Paper::check_row(&cells)?);
            if fails { Err(Paper::full_refusal()) } else { Ok(cells) }
        }
    }
    EqualRowNotHeldTwice {
        fn take_in(kept: &mut Kept, cells: Cells) -> u32 {
            match kept.rows.iter().find(|held| held.cells == cells) {
                Some(held) => held.number,
                None => Paper::take_in(kept, cells),
            }
        }
    }
    EqualRowMovedToItsNewNumber {
        fn take_in(kept: &mut Kept, cells: Cells) -> u32 {
            kept.rows.retain(|held| held.cells != cells);
            Paper::take_in(kept, cells)
        }
    }
    AddedRowWritesOverTheLast {
        fn take_in(kept: &mut Kept, cells: Cells) -> u32 {
            if let Some(last) = kept.rows.last_mut() {
                last.cells = cells;
            }
            Paper::take_in(kept, cells)
        }
    }
    FirstRowHeldForEveryAdd {
        fn take_in(kept: &mut Kept, cells: Cells) -> u32 {
            let first = kept.rows.first().map_or(cells, |held| held.cells);
            Paper::take_in(kept, first)
        }
    }
}
