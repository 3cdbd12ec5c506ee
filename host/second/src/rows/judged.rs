//! Rows that are judged: members in sensible proportions, with lengths, joints and forces at their edges.
use super::forces;
use super::random::Random;
use crate::cells::*;
use crate::{Paper, Rules};
use lvl_addin::row::CELLS;

/// The known regimes.
pub const REGIMES: [u64; 10] = [1, 2, 3, 4, 5, 6, 7, 8, 10, 11];

/// A row of any kind.
pub fn any_row(random: &mut Random) -> Cells {
    let kind = random.pick(&[1, 1, 1, 2, 3, 3, 4, 4, 4, 5]);
    let joint = kind == 1 && !random.one_in(4);
    row(random, kind, joint)
}

/// A row of this kind, with or without a joint.
pub fn row(random: &mut Random, kind: u64, joint: bool) -> Cells {
    let mut cells = [None; CELLS];
    fill_material(random, kind, &mut cells);
    fill_section(random, &mut cells);
    if kind != 2 {
        fill_lengths(random, kind, &mut cells);
    }
    if joint {
        fill_joint(random, &mut cells);
    }
    if random.one_in(10) {
        move_to_range_ends(random, &mut cells);
    }
    forces::fill(random, kind, &mut cells);
    cells
}

/// What a row of kind 2 has beside its forces.
pub fn section(random: &mut Random) -> Cells {
    let mut cells = [None; CELLS];
    fill_material(random, 2, &mut cells);
    fill_section(random, &mut cells);
    if random.one_in(10) {
        move_to_range_ends(random, &mut cells);
    }
    cells
}

/// Moves a value into the range of its cell.
pub fn into_range(number: usize, value: u64) -> u64 {
    match Paper::range(number) {
        Some(range) => value.clamp(*range.start(), *range.end()),
        None => value,
    }
}

fn set(cells: &mut Cells, number: usize, value: u64) {
    cells[number - 1] = Some(into_range(number, value));
}

fn get(cells: &Cells, number: usize) -> u64 {
    cell(cells, number).unwrap_or(0)
}

fn fill_material(random: &mut Random, kind: u64, cells: &mut Cells) {
    set(cells, KIND, kind);
    set(cells, GRADE, random.between(1, 3));
    set(cells, REGIME, random.pick(&REGIMES));
    let bound = random.pick(&[0, 10, 12, 15, 20, 60]);
    let moisture = match random.below(3) {
        0 => random.between(0, 60),
        _ => random.near(bound),
    };
    set(cells, MOISTURE, moisture);
    let office = match random.below(2) {
        0 => random.between(500, 1000),
        _ => 1000,
    };
    set(cells, OFFICE_FACTOR, office);
}

fn fill_section(random: &mut Random, cells: &mut Cells) {
    let (width, height) = match random.below(4) {
        0 => (random.between(20, 40), random.between(60, 120)),
        1 => (random.between(20, 300), random.between(60, 2500)),
        _ => (random.between(30, 150), random.between(100, 600)),
    };
    set(cells, WIDTH, width);
    set(cells, HEIGHT, height);
}

fn fill_lengths(random: &mut Random, kind: u64, cells: &mut Cells) {
    let row = match kind {
        3 | 4 => random.between(1, 3),
        _ => random.between(4, 5),
    };
    set(cells, TABLE_16_ROW, row);
    if random.one_in(16) {
        // A square section with equal lengths: checks 9 and 10 are equal.
        let side = random.between(60, 300);
        set(cells, WIDTH, side);
        set(cells, HEIGHT, side);
        let length = length(random, side, row);
        set(cells, LENGTH_H, length);
        set(cells, LENGTH_B, length);
    } else {
        let across_h = length(random, get(cells, HEIGHT), row);
        set(cells, LENGTH_H, across_h);
        let across_b = length(random, get(cells, WIDTH), row);
        set(cells, LENGTH_B, across_b);
    }
}

/// A length by its slenderness: at the limit, at 70, or anywhere up to the limit.
fn length(random: &mut Random, side: u64, row: u64) -> u64 {
    let limit = Paper::slenderness_limit(row);
    let within = |limit: u64| (limit * limit * side * side / 12).isqrt();
    match random.below(10) {
        0 => within(limit) + random.below(2),
        1 => within(70) + random.below(2),
        _ => within(random.between(5, limit)),
    }
}

fn fill_joint(random: &mut Random, cells: &mut Cells) {
    let height = get(cells, HEIGHT);
    let diameter = random.between(6, (2 * height / 12).min(40));
    let across = random.between(1, ((2 * height / diameter - 5) / 7).min(20));
    set(cells, DIAMETER, diameter);
    set(cells, DOWELS_ACROSS, across);
    if random.one_in(8) {
        let least_height = ((7 * across + 5) * diameter).div_ceil(2);
        set(cells, HEIGHT, random.near(least_height));
    }
    let width = get(cells, WIDTH);
    let side_thickness = match random.below(6) {
        0 => width / 2,
        1 => random.near(width / 2),
        _ => random.between(10, 300.min(2 * width)),
    };
    set(cells, SIDE_THICKNESS, side_thickness);
    set(cells, JOINT_LENGTH, random.between(1, 20_000));
    for number in [KC, KA, KB, KM] {
        set(cells, number, random.between(100, 5000));
    }
    let rope = match random.below(3) {
        0 => random.between(0, 5000),
        _ => random.between(0, 50),
    };
    set(cells, KE, rope);
}

/// Puts some of the filled cells on or next to an end of their range.
fn move_to_range_ends(random: &mut Random, cells: &mut Cells) {
    for number in 1..=CELLS {
        if let (Some(range), Some(_)) = (Paper::range(number), cell(cells, number)) {
            if random.one_in(3) {
                let end = random.pick(&[*range.start(), *range.end()]);
                set(cells, number, random.near(end));
            }
        }
    }
}
