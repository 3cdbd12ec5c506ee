//! The calls of one list, drawn by what the schedule holds.
use super::palette::Palette;
use crate::cells::{Cells, AXIAL, MOMENT, SHEAR};
use crate::rows::random::Random;
use crate::rows::{bytes_of, damaged, faults, judged, refused};
use crate::{Call, Given, Kept, KeptRules, Paper};
use lvl_addin::row::ROW_BYTES;

/// Where a stretch of calls leads.
#[derive(Clone, Copy)]
enum Aim {
    /// To a schedule that is full, and stays so.
    Full,
    /// To one that is empty, and again and again.
    Empty,
    /// To a few rows.
    Few,
    /// Nowhere.
    Any,
}

const AIMS: [Aim; 5] = [Aim::Full, Aim::Full, Aim::Empty, Aim::Few, Aim::Any];

/// A list that is being drawn.
pub struct Drawing<'a> {
    random: &'a mut Random,
    palette: Palette,
    kept: Kept,
    /// The number that was removed last, 0 before any was.
    removed: u32,
}

impl Drawing<'_> {
    pub fn new(random: &mut Random, palette: Palette) -> Drawing<'_> {
        Drawing {
            random,
            palette,
            kept: Paper::empty_schedule(),
            removed: 0,
        }
    }

    /// So many calls, in stretches.
    pub fn list(mut self, length: usize) -> Vec<Call> {
        let mut calls = Vec::new();
        while calls.len() < length {
            let aim = self.random.pick(&AIMS);
            for _ in 0..self.random.between(20, 200) {
                calls.push(self.call(aim));
            }
        }
        calls.truncate(length);
        calls
    }

    fn call(&mut self, aim: Aim) -> Call {
        let call = if self.is_add(aim) {
            Call::Add(self.row())
        } else {
            Call::Remove(self.number())
        };
        let given = Paper::carry_out(&mut self.kept, &call);
        if let (Call::Remove(number), Ok(Given::Removed)) = (call, given) {
            self.removed = number;
        }
        call
    }

    /// Whether the next call is an add.
    fn is_add(&mut self, aim: Aim) -> bool {
        let held = self.kept.rows.len();
        let of_eight = match aim {
            Aim::Full if Paper::is_full(&self.kept) => 4,
            Aim::Full => 7,
            Aim::Empty if held == 0 => 4,
            Aim::Empty => 1,
            Aim::Few if held < 4 => 6,
            Aim::Few => 3,
            Aim::Any => 4,
        };
        self.random.below(8) < of_eight
    }

    /// A row to add: one of the list's, one almost equal to a row that is held, any, or one that is refused.
    fn row(&mut self) -> [u8; ROW_BYTES] {
        let cells = self.palette.row(self.random);
        match self.random.below(16) {
            0 | 1 => bytes_of(&self.almost(cells)),
            2 => bytes_of(&judged::any_row(self.random)),
            3 => bytes_of(&refused::row(self.random)),
            4 => self.spoilt(&cells),
            5 => {
                let mut row = bytes_of(&cells);
                damaged::damage(self.random, &mut row);
                row
            }
            _ => bytes_of(&cells),
        }
    }

    /// This row, or the one that governs, with a force moved so little that the utilisation hardly moves.
    fn almost(&mut self, cells: Cells) -> Cells {
        let mut cells = match self.governing() {
            Some(place) if self.random.one_in(2) => self.kept.rows[place].cells,
            _ => cells,
        };
        for number in [AXIAL, MOMENT, SHEAR] {
            if let Some(force) = cells[number - 1] {
                let step = force.div_ceil(self.random.pick(&[1_000_000, 10_000_000]));
                let moved = force + step * self.random.below(3);
                let force = judged::into_range(number, moved.saturating_sub(step));
                cells[number - 1] = Some(force);
            }
        }
        cells
    }

    /// This row with one or two faults.
    fn spoilt(&mut self, cells: &Cells) -> [u8; ROW_BYTES] {
        let all: Vec<_> = faults::of_row(cells).collect();
        let count = self.random.between(1, 2);
        let some: Vec<_> = (0..count).map(|_| self.random.pick(&all)).collect();
        faults::spoilt_row(self.random, cells, &some)
    }

    /// A number to remove: held, gone, never given, or one that is held in its lower bits alone.
    fn number(&mut self) -> u32 {
        let held = self.kept.rows.len() as u64;
        match self.random.below(16) {
            0 => self.removed,
            1 => self.gone(),
            2 => self.never_given(),
            3 => self.any_held() ^ 1 << self.random.below(32),
            // A place in the list, which is often not the number of the row there.
            4 => self.random.near(held) as u32,
            5 => self.any_held().swap_bytes(),
            6..=8 => match self.governing() {
                Some(place) => self.kept.rows[place].number,
                None => 0,
            },
            9 => self.kept.rows.first().map_or(0, |held| held.number),
            10 => self.kept.rows.last().map_or(0, |held| held.number),
            _ => self.any_held(),
        }
    }

    /// The number of any row that is held, 0 without one.
    fn any_held(&mut self) -> u32 {
        match &self.kept.rows[..] {
            [] => 0,
            rows => self.random.pick(rows).number,
        }
    }

    /// A number that has been removed; if none is found, a number that is held.
    fn gone(&mut self) -> u32 {
        let mut number = 0;
        for _ in 0..8 {
            number = self.random.between(1, self.kept.next.into()) as u32;
            if Paper::place_of(&self.kept, number).is_none() {
                break;
            }
        }
        number
    }

    fn never_given(&mut self) -> u32 {
        let next = self.kept.next;
        self.random
            .pick(&[0, next, next + 1, 1_000_000, 1_000_001, u32::MAX])
    }

    /// The place of the row that governs.
    fn governing(&self) -> Option<usize> {
        let governing = Paper::governing(&self.kept)?;
        Paper::place_of(&self.kept, governing.number)
    }
}
