//! The stored input of the program `replay`: the worked rows, and every sort of answer.
use crate::cells::{Cells, DIAMETER, HEIGHT, JOINT_LENGTH, LENGTH_B, REGIME};
use crate::kept::CAPACITY;
use crate::rows::random::Random;
use crate::rows::worked::{a, b, e, with};
use crate::rows::{bytes_of, judged};
use crate::{Call, KeptRules, Paper, Rules};
use lvl_addin::answer::Verdict;
use lvl_addin::row::CELLS;

/// The calls.
pub fn calls() -> Vec<Call> {
    let mut calls = worked_rows();
    calls.extend(refused_rows());
    calls.extend(filling());
    let last = in_a_full_schedule(&calls);
    calls.extend(last);
    calls
}

fn add(cells: &Cells) -> Call {
    Call::Add(bytes_of(cells))
}

/// Rows A to D, F, G and E as numbers 1 to 7, and removals while F and G, which rank alike, govern.
fn worked_rows() -> Vec<Call> {
    let c = with(b(), LENGTH_B, 2020);
    let d = with(b(), LENGTH_B, 2021);
    let f = with(e(), JOINT_LENGTH, 671);
    let g = with(e(), DIAMETER, 16);
    let mut calls = vec![Call::Remove(1)];
    calls.extend([a(), b(), c, d, f, g, e(), a()].map(|cells| add(&cells)));
    calls.extend([5, 6, 1, 8, 1, 7, 3, 4, 2].map(Call::Remove));
    calls
}

/// Row H and others that are refused, and numbers that are not held: gone, not given yet, none that can be.
fn refused_rows() -> Vec<Call> {
    let mut unreadable = bytes_of(&a());
    unreadable[9 * (REGIME - 1)] = 2;
    let mut calls = vec![add(&[None; CELLS]), Call::Add(unreadable)];
    calls.extend([with(a(), REGIME, 9), with(a(), HEIGHT, 59)].map(|cells| add(&cells)));
    calls.extend([0, 8, 9, 1_000_001, u32::MAX].map(Call::Remove));
    calls
}

/// As many rows as can be held, from number 9 on: rows that pass, then such as fail by strength too, then any.
fn filling() -> Vec<Call> {
    let mut random = Random::new(0x5245_504C_4159);
    let mut row = |at: usize| {
        let kind = at as u64 % 5 + 1;
        row_of(&mut random, kind, |verdict| match at {
            0..24 => verdict.passes,
            24..48 => !Paper::fails_yes_or_no(verdict),
            _ => true,
        })
    };
    (0..CAPACITY).map(|at| add(&row(at))).collect()
}

/// A row of this kind whose verdict is wanted.
fn row_of(random: &mut Random, kind: u64, is_wanted: impl Fn(&Verdict) -> bool) -> Cells {
    loop {
        let cells = judged::row(random, kind, kind == 1);
        if Paper::check_row(&cells).is_ok_and(|verdict| is_wanted(&verdict)) {
            return cells;
        }
    }
}

/// Adds to a full schedule and to one that has room again, and removals, first of the row that governs.
fn in_a_full_schedule(before: &[Call]) -> Vec<Call> {
    vec![
        add(&a()),
        add(&with(a(), HEIGHT, 59)),
        Call::Remove(8),
        Call::Remove(governing_after(before)),
        add(&a()),
        add(&a()),
        Call::Remove(73),
        Call::Remove(73),
    ]
}

/// The number of the row that governs after these calls.
fn governing_after(calls: &[Call]) -> u32 {
    let mut kept = Paper::empty_schedule();
    for call in calls {
        // What a refused call leaves is looked at all the same.
        let _ = Paper::carry_out(&mut kept, call);
    }
    Paper::governing(&kept).map_or(0, |governing| governing.number)
}
