//! The catalogue of the rules of the request for a kept schedule, above those of document 01: one method each, as there.
use crate::cells::Cells;
use crate::kept::{self, Answered, Call, Given, Held, Kept};
use crate::kept_governing::{self, Governing, Rank};
use crate::replay;
use crate::rules::Rules;
use lvl_addin::answer::{Refusal, Verdict};
use lvl_addin::row::ROW_BYTES;

/// The rules of the kept schedule. Every method is provided.
pub trait KeptRules: Rules {
    // Numbers and room.

    /// How many rows are held at most.
    fn capacity() -> usize {
        kept::CAPACITY
    }

    /// The number that the first add returns.
    fn first_kept_number() -> u32 {
        kept::FIRST_NUMBER
    }

    /// The last number that an add returns.
    fn last_kept_number() -> u32 {
        kept::LAST_NUMBER
    }

    /// A schedule to which nothing has been added.
    fn empty_schedule() -> Kept {
        kept::empty_schedule::<Self>()
    }

    /// Whether as many rows are held as can be.
    fn is_full(kept: &Kept) -> bool {
        kept::is_full::<Self>(kept)
    }

    /// Whether every number has been returned.
    fn numbers_are_spent(kept: &Kept) -> bool {
        kept::numbers_are_spent::<Self>(kept)
    }

    // Adding.

    /// The refusal of an add that has no room or no number.
    fn full_refusal() -> Refusal {
        kept::full_refusal()
    }

    /// Refusal 11.
    fn refuse_without_room(kept: &Kept) -> Result<(), Refusal> {
        kept::refuse_without_room::<Self>(kept)
    }

    /// The cells of a row, or its own refusal.
    fn accepted_row(row: &[u8; ROW_BYTES]) -> Result<Cells, Refusal> {
        kept::accepted_row::<Self>(row)
    }

    /// Holds a row under the next number, and gives that.
    fn take_in(kept: &mut Kept, cells: Cells) -> u32 {
        kept::take_in(kept, cells)
    }

    /// The number that a row gets, or the first of the refusals in their order.
    fn add(kept: &mut Kept, row: &[u8; ROW_BYTES]) -> Result<u32, Refusal> {
        kept::add::<Self>(kept, row)
    }

    // Removing.

    /// The refusal of a removal of a number that is not held.
    fn not_held_refusal() -> Refusal {
        kept::not_held_refusal()
    }

    /// The place in the list of the row with a number, if that is held.
    fn place_of(kept: &Kept, number: u32) -> Option<usize> {
        kept::place_of(kept, number)
    }

    /// Takes out the row at a place of the list.
    fn take_out(kept: &mut Kept, place: usize) {
        kept::take_out(kept, place);
    }

    /// Removal, or refusal 12.
    fn remove(kept: &mut Kept, number: u32) -> Result<(), Refusal> {
        kept::remove::<Self>(kept, number)
    }

    // What governs.

    /// Whether a verdict is a fail on a yes-or-no check.
    fn fails_yes_or_no(verdict: &Verdict) -> bool {
        kept_governing::fails_yes_or_no(verdict)
    }

    /// The rank of a verdict.
    fn rank(verdict: &Verdict) -> Rank {
        kept_governing::rank::<Self>(verdict)
    }

    /// Whether a verdict ranks above another.
    fn outranks(one: &Verdict, other: &Verdict) -> bool {
        kept_governing::outranks::<Self>(one, other)
    }

    /// Whether a row governs before another.
    fn governs_before(one: &Governing, other: &Governing) -> bool {
        kept_governing::governs_before::<Self>(one, other)
    }

    /// The number of a row that is held, and the verdict on it, checked afresh.
    fn checked_afresh(held: &Held) -> Governing {
        kept_governing::checked_afresh::<Self>(held)
    }

    /// The row that governs, if any is held.
    fn governing(kept: &Kept) -> Option<Governing> {
        kept_governing::governing::<Self>(kept)
    }

    // Calls.

    /// Carries out a call, or refuses it.
    fn carry_out(kept: &mut Kept, call: &Call) -> Result<Given, Refusal> {
        kept::carry_out::<Self>(kept, call)
    }

    /// What a call gives, and what governs after it.
    fn answer_call(kept: &mut Kept, call: &Call) -> Answered {
        kept::answer_call::<Self>(kept, call)
    }

    // The program `replay`.

    /// The part of a line that tells what a call gave.
    fn given_text(given: &Result<Given, Refusal>) -> String {
        replay::given_text(given)
    }

    /// The part of a line that tells what governs.
    fn governing_text(governing: &Option<Governing>) -> String {
        replay::governing_text(governing)
    }

    /// The line of a call.
    fn answer_line(answered: &Answered) -> String {
        replay::answer_line::<Self>(answered)
    }

    /// The output.
    fn replay(calls: &[Call]) -> String {
        replay::replay::<Self>(calls)
    }
}
