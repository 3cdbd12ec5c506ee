//! Wrong copies of removing: which number is held, what is taken out, and what a refused removal leaves.
use lvl_addin::answer::Refusal;
use lvl_second::{Held, Kept, KeptRules, Paper, Rules};

/// Where a number is held whose lower bits are these.
fn place_by_lower(bits: u32, kept: &Kept, number: u32) -> Option<usize> {
    let low = |number| number & ((1 << bits) - 1);
    kept.rows
        .iter()
        .position(|held| low(held.number) == low(number))
}

/// Removes a number, and does this where that is refused.
fn on_12(kept: &mut Kept, number: u32, after: impl Fn(&mut Kept)) -> Result<(), Refusal> {
    let removed = Paper::remove(kept, number);
    if removed.is_err() {
        after(kept);
    }
    removed
}

/// Removes a number; one that is not held is accepted where this is so.
fn accepted_if(kept: &mut Kept, number: u32, is: impl Fn(&Kept) -> bool) -> Result<(), Refusal> {
    match Paper::remove(kept, number) {
        Err(_) if is(kept) => Ok(()),
        removed => removed,
    }
}

wrong_copies! { KeptRules, Keeping:
    RowStaysIn {
        fn take_out(_kept: &mut Kept, _place: usize) {}
    }
    RowAtThatPlace {
        fn place_of(kept: &Kept, number: u32) -> Option<usize> {
            (1..=kept.rows.len()).find(|&place| place == number as usize).map(|place| place - 1)
        }
    }
    RowAtThatPlaceFromZero {
        fn place_of(kept: &Kept, number: u32) -> Option<usize> {
            (0..kept.rows.len()).find(|&place| place == number as usize)
        }
    }
    RowAfterIt {
        fn take_out(kept: &mut Kept, place: usize) {
            let rows = kept.rows.len();
            Paper::take_out(kept, (place + 1) % rows);
        }
    }
    RowBeforeIt {
        fn take_out(kept: &mut Kept, place: usize) {
            Paper::take_out(kept, place.saturating_sub(1));
        }
    }
    FirstRow {
        fn take_out(kept: &mut Kept, _place: usize) {
            Paper::take_out(kept, 0);
        }
    }
    LastRow {
        fn take_out(kept: &mut Kept, _place: usize) {
            kept.rows.pop();
        }
    }
    GoverningRow {
        fn take_out(kept: &mut Kept, _place: usize) {
            let governing = Paper::governing(kept).expect("a row is held");
            kept.rows.retain(|held| held.number != governing.number);
        }
    }
    FirstOfEqualRows {
        fn take_out(kept: &mut Kept, place: usize) {
            let cells = kept.rows[place].cells;
            let first = kept.rows.iter().position(|held| held.cells == cells);
            Paper::take_out(kept, first.unwrap_or(place));
        }
    }
    LastOfEqualRows {
        fn take_out(kept: &mut Kept, place: usize) {
            let cells = kept.rows[place].cells;
            let last = kept.rows.iter().rposition(|held| held.cells == cells);
            Paper::take_out(kept, last.unwrap_or(place));
        }
    }
    AllEqualRows {
        fn take_out(kept: &mut Kept, place: usize) {
            let cells = kept.rows[place].cells;
            kept.rows.retain(|held| held.cells != cells);
        }
    }
    AllOfTheSameRank {
        fn take_out(kept: &mut Kept, place: usize) {
            let rank = |held: &Held| Paper::rank(&Paper::checked_afresh(held).verdict);
            let of_it = rank(&kept.rows[place]);
            kept.rows.retain(|held| rank(held) != of_it);
        }
    }
    AllOfTheSameKind {
        fn take_out(kept: &mut Kept, place: usize) {
            let kind = kept.rows[place].cells[0];
            kept.rows.retain(|held| held.cells[0] != kind);
        }
    }
    AllRows {
        fn take_out(kept: &mut Kept, _place: usize) {
            kept.rows.clear();
        }
    }
    AllRowsUpToIt {
        fn take_out(kept: &mut Kept, place: usize) {
            kept.rows.drain(..=place);
        }
    }
    AllRowsFromItOn {
        fn take_out(kept: &mut Kept, place: usize) {
            kept.rows.truncate(place);
        }
    }
    LastRowMovedUnderItsNumber {
        fn take_out(kept: &mut Kept, place: usize) {
            let number = kept.rows[place].number;
            kept.rows.swap_remove(place);
            if let Some(moved) = kept.rows.get_mut(place) {
                moved.number = number;
            }
        }
    }
    LaterRowsRenumbered {
        fn take_out(kept: &mut Kept, place: usize) {
            Paper::take_out(kept, place);
            kept.rows[place..].iter_mut().for_each(|held| held.number -= 1);
        }
    }
    NumbersComparedIn8Bits {
        fn place_of(kept: &Kept, number: u32) -> Option<usize> {
            place_by_lower(8, kept, number)
        }
    }
    NumbersComparedIn16Bits {
        fn place_of(kept: &Kept, number: u32) -> Option<usize> {
            place_by_lower(16, kept, number)
        }
    }
    NumbersComparedIn20Bits {
        fn place_of(kept: &Kept, number: u32) -> Option<usize> {
            place_by_lower(20, kept, number)
        }
    }
    NumbersComparedIn24Bits {
        fn place_of(kept: &Kept, number: u32) -> Option<usize> {
            place_by_lower(24, kept, number)
        }
    }
    NumbersComparedIn31Bits {
        fn place_of(kept: &Kept, number: u32) -> Option<usize> {
            place_by_lower(31, kept, number)
        }
    }
    NumbersHighestByteFirst {
        fn place_of(kept: &Kept, number: u32) -> Option<usize> {
            Paper::place_of(kept, number.swap_bytes())
        }
    }
    NumbersInEitherOrderOfBytes {
        fn place_of(kept: &Kept, number: u32) -> Option<usize> {
            Paper::place_of(kept, number).or(Paper::place_of(kept, number.swap_bytes()))
        }
    }
    NumberZeroRemovesTheFirst {
        fn place_of(kept: &Kept, number: u32) -> Option<usize> {
            match number {
                0 if !kept.rows.is_empty() => Some(0),
                _ => Paper::place_of(kept, number),
            }
        }
    }
    NumberZeroAccepted {
        fn remove(kept: &mut Kept, number: u32) -> Result<(), Refusal> {
            accepted_if(kept, number, |_| number == 0)
        }
    }
    NumberGoneAccepted {
        fn remove(kept: &mut Kept, number: u32) -> Result<(), Refusal> {
            accepted_if(kept, number, |kept| (1..kept.next).contains(&number))
        }
    }
    NextNumberAccepted {
        fn remove(kept: &mut Kept, number: u32) -> Result<(), Refusal> {
            accepted_if(kept, number, |kept| number == kept.next)
        }
    }
    NumberBeyondTheLastAccepted {
        fn remove(kept: &mut Kept, number: u32) -> Result<(), Refusal> {
            accepted_if(kept, number, |_| number > 1_000_000)
        }
    }
    NumberNotHeldAcceptedWhereNoneIs {
        fn remove(kept: &mut Kept, number: u32) -> Result<(), Refusal> {
            accepted_if(kept, number, |kept| kept.rows.is_empty())
        }
    }
    NumberNotHeldAccepted {
        fn remove(kept: &mut Kept, number: u32) -> Result<(), Refusal> {
            accepted_if(kept, number, |_| true)
        }
    }
    NumberNotHeldRemovesTheLast {
        fn place_of(kept: &Kept, number: u32) -> Option<usize> {
            Paper::place_of(kept, number).or(kept.rows.len().checked_sub(1))
        }
    }
    NumberNotHeldRemovesTheNextLower {
        fn place_of(kept: &Kept, number: u32) -> Option<usize> {
            kept.rows.iter().rposition(|held| held.number <= number)
        }
    }
    NumberNotHeldRemovesTheNextHigher {
        fn place_of(kept: &Kept, number: u32) -> Option<usize> {
            kept.rows.iter().position(|held| held.number >= number)
        }
    }
    NotHeldAs11 {
        fn not_held_refusal() -> Refusal {
            Paper::full_refusal()
        }
    }
    NotHeldAs10 {
        fn not_held_refusal() -> Refusal {
            Refusal { number: 10, cell: 0 }
        }
    }
    NotHeldAs13 {
        fn not_held_refusal() -> Refusal {
            Refusal { number: 13, cell: 0 }
        }
    }
    NotHeldNamesCell1 {
        fn not_held_refusal() -> Refusal {
            Refusal { cell: 1, ..Paper::not_held_refusal() }
        }
    }
    NotHeldNamesTheNumber {
        fn remove(kept: &mut Kept, number: u32) -> Result<(), Refusal> {
            Paper::remove(kept, number).map_err(|found| Refusal { cell: number, ..found })
        }
    }
    NotHeldDropsTheLastAndRefuses {
        fn remove(kept: &mut Kept, number: u32) -> Result<(), Refusal> {
            on_12(kept, number, |kept| { kept.rows.pop(); })
        }
    }
    NotHeldDropsTheFirstAndRefuses {
        fn remove(kept: &mut Kept, number: u32) -> Result<(), Refusal> {
            on_12(kept, number, |kept| { kept.rows.drain(..kept.rows.len().min(1)); })
        }
    }
    NotHeldEmptiesAndRefuses {
        fn remove(kept: &mut Kept, number: u32) -> Result<(), Refusal> {
            on_12(kept, number, |kept| kept.rows.clear())
        }
    }
    PassingRowsNotRemoved {
        fn place_of(kept: &Kept, number: u32) -> Option<usize> {
            let passes = |&place: &usize| Paper::check_row(&kept.rows[place].cells).is_ok_and(|verdict| verdict.passes);
            Paper::place_of(kept, number).filter(|place| !passes(place))
        }
    }
    GoverningRowNotRemoved {
        fn place_of(kept: &Kept, number: u32) -> Option<usize> {
            let governs = Paper::governing(kept).is_some_and(|governing| governing.number == number);
            if governs { None } else { Paper::place_of(kept, number) }
        }
    }
}
