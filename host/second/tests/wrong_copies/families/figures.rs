//! One for each figure of a table and each bound between classes.
use super::{keep_the_requests, moved, slip, SLIP};
use crate::evidence::{Checking, EveryRule, Shows, Wrong};
use lvl_second::cells::Grade;
use lvl_second::rows::judged::REGIMES;
use lvl_second::{Paper, Rules};

/// One figure of Table 7, by grade.
struct Bending;
impl Rules for Bending {
    fn bending_strength(grade: Grade) -> u64 {
        moved(Paper::bending_strength(grade), grade as u64, 0)
    }
}

struct Compression;
impl Rules for Compression {
    fn compression_strength(grade: Grade) -> u64 {
        moved(Paper::compression_strength(grade), grade as u64, 0)
    }
}

struct Tension;
impl Rules for Tension {
    fn tension_strength(grade: Grade) -> u64 {
        moved(Paper::tension_strength(grade), grade as u64, 0)
    }
}

struct Shear;
impl Rules for Shear {
    fn shear_strength(grade: Grade) -> u64 {
        moved(Paper::shear_strength(grade), grade as u64, 0)
    }
}

struct Duration;
impl Rules for Duration {
    fn duration_factor(code: u64) -> Option<u64> {
        Paper::duration_factor(code).map(|right| moved(right, code, 0))
    }
}

/// The factor of one class of moisture.
struct Moisture;
impl Rules for Moisture {
    fn moisture_factor(percent: u64) -> u64 {
        let right = Paper::moisture_factor(percent);
        moved(right, right, 0)
    }
}

/// One bound between classes of moisture.
struct MoistureBound;
impl Rules for MoistureBound {
    fn moisture_factor(percent: u64) -> u64 {
        let (bound, _, by) = SLIP.get();
        let at = if by > 0 { bound + 1 } else { bound };
        Paper::moisture_factor(if percent == at {
            percent.wrapping_add_signed(-by)
        } else {
            percent
        })
    }
}

struct SlendernessLimit;
impl Rules for SlendernessLimit {
    fn slenderness_limit(row: u64) -> u64 {
        moved(Paper::slenderness_limit(row), row, 0)
    }
}

keep_the_requests!(
    Bending,
    Compression,
    Tension,
    Shear,
    Duration,
    Moisture,
    MoistureBound,
    SlendernessLimit,
);

/// Which way a figure is moved.
const EITHER_WAY: [i64; 2] = [-1, 1];

/// Of the figures that strengths are made of: Table 7, and the factors of duration and moisture.
pub fn of_strengths<E: Shows>() -> Vec<Wrong> {
    let mut copies = table_7::<E, Bending>("bending");
    copies.extend(table_7::<E, Compression>("compression"));
    copies.extend(table_7::<E, Tension>("tension"));
    copies.extend(table_7::<E, Shear>("shear"));
    copies.extend(durations::<E>(&REGIMES));
    copies.extend(moistures::<E>());
    copies.extend(moisture_bounds::<E>());
    copies
}

/// Of the figures that a floor beam is judged by: bending and shear strengths, the factors of both regimes, and those
/// of moisture.
pub fn of_beams<E: Shows>() -> Vec<Wrong> {
    let mut copies = table_7::<E, Bending>("bending");
    copies.extend(table_7::<E, Shear>("shear"));
    copies.extend(durations::<E>(&[2, 3]));
    copies.extend(moistures::<E>());
    copies
}

/// Of the figures that sags take from document 01: the factors of moisture and their bounds.
pub fn of_sags<E: Shows>() -> Vec<Wrong> {
    let mut copies = moistures::<E>();
    copies.extend(moisture_bounds::<E>());
    copies
}

/// One figure moved either way, by where it stands.
fn moved_either_way<E: Shows, R: EveryRule>(what: &str, at: u64) -> [Wrong; 2] {
    EITHER_WAY.map(|by| slip::<E, R>(format!("{what} moved by {by}"), at, 0, by))
}

fn table_7<E: Shows, R: EveryRule>(stress: &str) -> Vec<Wrong> {
    let moved = |grade: Grade| {
        let what = format!("{stress} strength of {grade:?}");
        moved_either_way::<E, R>(&what, grade as u64)
    };
    [Grade::K45, Grade::K40, Grade::K35]
        .into_iter()
        .flat_map(moved)
        .collect()
}

fn durations<E: Shows>(codes: &[u64]) -> Vec<Wrong> {
    let moved = |&code: &u64| {
        let what = format!("duration factor of code {code}");
        moved_either_way::<E, Duration>(&what, code)
    };
    codes.iter().flat_map(moved).collect()
}

fn moistures<E: Shows>() -> Vec<Wrong> {
    let moved =
        |factor| moved_either_way::<E, Moisture>(&format!("moisture factor {factor}"), factor);
    [100, 90, 85, 75].into_iter().flat_map(moved).collect()
}

fn moisture_bounds<E: Shows>() -> Vec<Wrong> {
    let moved =
        |bound| moved_either_way::<E, MoistureBound>(&format!("moisture bound {bound}"), bound);
    [12, 15, 20].into_iter().flat_map(moved).collect()
}

pub fn of_slenderness() -> Vec<Wrong> {
    let moved = |row| {
        let what = format!("slenderness limit of row {row}");
        moved_either_way::<Checking, SlendernessLimit>(&what, row)
    };
    (1..=5).flat_map(moved).collect()
}
