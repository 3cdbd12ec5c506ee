//! One list that spends the numbers: a million adds that are not refused, and what comes after them.
use crate::cells::{DIAMETER, GRADE, HEIGHT, JOINT_LENGTH, MOMENT};
use crate::kept::{CAPACITY, LAST_NUMBER};
use crate::rows::bytes_of;
use crate::rows::random::Random;
use crate::rows::worked::{a, e, of_every_kind, with};
use crate::Call;
use lvl_addin::row::{CELLS, ROW_BYTES};

/// How many rows are held as a rule: few, since they are all checked at every call.
const FEW: usize = 3;

/// How many adds before the last the schedule begins to fill, so that numbers and room end together.
const FILLING: u32 = 80;

/// How many calls come after the last number, and how many of them are adds to a schedule that is still full.
const AFTER: u32 = 4000;
const AFTER_AND_FULL: u32 = 10;

/// The calls.
pub struct Spending {
    random: Random,
    good: Vec<[u8; ROW_BYTES]>,
    refused: Vec<[u8; ROW_BYTES]>,
    held: Vec<u32>,
    next: u32,
    left_after: u32,
}

impl Spending {
    /// The one list that every test reads, from its beginning.
    pub fn new() -> Spending {
        Spending {
            random: Random::new(0x5350_454E_4449_4E47),
            good: good_rows(),
            refused: refused_rows(),
            held: Vec::new(),
            next: 1,
            left_after: AFTER,
        }
    }

    /// An add that is not refused while there are numbers and room.
    fn added(&mut self) -> Call {
        if self.next <= LAST_NUMBER && self.held.len() < CAPACITY {
            self.held.push(self.next);
            self.next += 1;
        }
        Call::Add(self.random.pick(&self.good))
    }

    /// A removal of a number that is held.
    fn removed(&mut self) -> Call {
        let place = self.random.below(self.held.len() as u64) as usize;
        Call::Remove(self.held.remove(place))
    }

    /// A call that is refused, whatever is held.
    fn refused(&mut self) -> Call {
        let gone = self.held.first().map_or(0, |lowest| lowest - 1);
        let not_held = [0, gone, self.next, LAST_NUMBER + 1, u32::MAX];
        if self.random.one_in(2) {
            Call::Add(self.random.pick(&self.refused))
        } else {
            Call::Remove(self.random.pick(&not_held))
        }
    }

    /// How many rows are held at most.
    fn most(&self) -> usize {
        if self.next + FILLING > LAST_NUMBER {
            CAPACITY
        } else {
            FEW
        }
    }

    /// A call while there are numbers.
    fn before_the_last(&mut self) -> Call {
        let is_add = match self.most() - self.held.len() {
            // Refused where there is no room.
            0 => self.held.len() == CAPACITY && self.random.one_in(2),
            _ => true,
        };
        if is_add {
            self.added()
        } else {
            self.removed()
        }
    }

    /// A call after the last number: the schedule empties, and stays so.
    fn after_the_last(&mut self) -> Option<Call> {
        self.left_after = self.left_after.checked_sub(1)?;
        let is_still_full = self.left_after >= AFTER - AFTER_AND_FULL;
        let is_add = is_still_full || self.held.is_empty() || !self.random.one_in(16);
        Some(if is_add { self.added() } else { self.removed() })
    }
}

impl Default for Spending {
    fn default() -> Spending {
        Spending::new()
    }
}

impl Iterator for Spending {
    type Item = Call;

    fn next(&mut self) -> Option<Call> {
        if self.random.one_in(16) {
            Some(self.refused())
        } else if self.next > LAST_NUMBER {
            self.after_the_last()
        } else {
            Some(self.before_the_last())
        }
    }
}

/// Rows that are judged: of every kind, a yes-or-no fail on checks 1 and 4, and one beyond the cap.
fn good_rows() -> Vec<[u8; ROW_BYTES]> {
    let others = [
        with(e(), DIAMETER, 16),
        with(e(), JOINT_LENGTH, 671),
        with(a(), MOMENT, 10_000_000_000),
    ];
    let rows = of_every_kind().into_iter().chain(others);
    rows.map(|cells| bytes_of(&cells)).collect()
}

/// Rows that are refused, by each number.
fn refused_rows() -> Vec<[u8; ROW_BYTES]> {
    let mut unreadable = bytes_of(&a());
    unreadable[0] = 2;
    let others = [[None; CELLS], with(a(), GRADE, 4), with(a(), HEIGHT, 59)];
    let mut rows = vec![unreadable];
    rows.extend(others.map(|cells| bytes_of(&cells)));
    rows
}
