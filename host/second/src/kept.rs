//! The kept schedule: a plain list of rows with their numbers, and calls that change it. No verdict is kept.
use crate::cells::Cells;
use crate::kept_governing::Governing;
use crate::kept_rules::KeptRules;
use lvl_addin::answer::Refusal;
use lvl_addin::row::ROW_BYTES;

/// How many rows are held at most.
pub const CAPACITY: usize = 64;

/// The numbers that adds return.
pub const FIRST_NUMBER: u32 = 1;
pub const LAST_NUMBER: u32 = 1_000_000;

/// A row that is held.
#[derive(Clone, Copy, Debug, PartialEq, Eq)]
pub struct Held {
    pub number: u32,
    pub cells: Cells,
}

/// A schedule.
#[derive(Clone, Debug)]
pub struct Kept {
    pub rows: Vec<Held>,
    /// The number of the next add; beyond the last where all are spent.
    pub next: u32,
}

/// What is asked of a schedule.
#[derive(Clone, Copy, Debug, PartialEq, Eq)]
pub enum Call {
    /// To add the host's row.
    Add([u8; ROW_BYTES]),
    /// To remove a number.
    Remove(u32),
}

/// What a call gives that is not refused.
#[derive(Clone, Copy, Debug, PartialEq, Eq)]
pub enum Given {
    Added(u32),
    Removed,
}

/// What a call gives, and what governs after it.
#[derive(Clone, Copy, Debug, PartialEq, Eq)]
pub struct Answered {
    pub given: Result<Given, Refusal>,
    pub governing: Option<Governing>,
}

/// A schedule to which nothing has been added.
pub fn empty_schedule<R: KeptRules>() -> Kept {
    Kept {
        rows: Vec::new(),
        next: R::first_kept_number(),
    }
}

/// Whether as many rows are held as can be.
pub fn is_full<R: KeptRules>(kept: &Kept) -> bool {
    kept.rows.len() >= R::capacity()
}

/// Whether every number has been returned.
pub fn numbers_are_spent<R: KeptRules>(kept: &Kept) -> bool {
    kept.next > R::last_kept_number()
}

/// The refusal of an add that has no room or no number: no cell is to blame.
pub fn full_refusal() -> Refusal {
    Refusal {
        number: 11,
        cell: 0,
    }
}

/// Refuses an add where nothing more can be held.
pub fn refuse_without_room<R: KeptRules>(kept: &Kept) -> Result<(), Refusal> {
    if R::is_full(kept) || R::numbers_are_spent(kept) {
        Err(R::full_refusal())
    } else {
        Ok(())
    }
}

/// The cells of a row that the check judges.
pub fn accepted_row<R: KeptRules>(row: &[u8; ROW_BYTES]) -> Result<Cells, Refusal> {
    let cells = R::read_row(row)?;
    R::accept(&cells)?;
    Ok(cells)
}

/// Holds a row. Its number is never returned again, since the next one only rises.
pub fn take_in(kept: &mut Kept, cells: Cells) -> u32 {
    let number = kept.next;
    kept.rows.push(Held { number, cells });
    kept.next += 1;
    number
}

/// Adds a row. Its own refusals come before that for want of room.
pub fn add<R: KeptRules>(kept: &mut Kept, row: &[u8; ROW_BYTES]) -> Result<u32, Refusal> {
    let cells = R::accepted_row(row)?;
    R::refuse_without_room(kept)?;
    Ok(R::take_in(kept, cells))
}

/// The refusal of a removal of a number that is not held: no cell is to blame.
pub fn not_held_refusal() -> Refusal {
    Refusal {
        number: 12,
        cell: 0,
    }
}

/// Where a number is held.
pub fn place_of(kept: &Kept, number: u32) -> Option<usize> {
    kept.rows.iter().position(|held| held.number == number)
}

/// Takes out one row; the others stay as they were.
pub fn take_out(kept: &mut Kept, place: usize) {
    kept.rows.remove(place);
}

/// Removes a number.
pub fn remove<R: KeptRules>(kept: &mut Kept, number: u32) -> Result<(), Refusal> {
    let place = R::place_of(kept, number).ok_or_else(R::not_held_refusal)?;
    R::take_out(kept, place);
    Ok(())
}

/// Carries out a call. One that is refused changes nothing.
pub fn carry_out<R: KeptRules>(kept: &mut Kept, call: &Call) -> Result<Given, Refusal> {
    match call {
        Call::Add(row) => R::add(kept, row).map(Given::Added),
        Call::Remove(number) => R::remove(kept, *number).map(|()| Given::Removed),
    }
}

/// Carries out a call, and finds what governs the schedule that it leaves.
pub fn answer_call<R: KeptRules>(kept: &mut Kept, call: &Call) -> Answered {
    let given = R::carry_out(kept, call);
    Answered {
        given,
        governing: R::governing(kept),
    }
}
