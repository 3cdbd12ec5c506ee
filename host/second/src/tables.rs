//! The tables: codes, strengths, factors and slenderness limits.
use crate::cells::{Grade, Kind};

/// The kind that a code of cell 1 stands for.
pub fn kind(code: u64) -> Option<Kind> {
    match code {
        1 => Some(Kind::Tension),
        2 => Some(Kind::Bending),
        3 => Some(Kind::Compression),
        4 => Some(Kind::CompressionWithBending),
        5 => Some(Kind::TensionWithBending),
        _ => None,
    }
}

/// The grade that a code of cell 2 stands for.
pub fn grade(code: u64) -> Option<Grade> {
    match code {
        1 => Some(Grade::K45),
        2 => Some(Grade::K40),
        3 => Some(Grade::K35),
        _ => None,
    }
}

/// The duration factor of a regime, hundredths. Code 9 is the regime of fire and has none here; code 8 is above one
/// and stays so.
pub fn duration_factor(code: u64) -> Option<u64> {
    match code {
        1 | 11 => Some(100),
        2 => Some(53),
        3 | 4 => Some(66),
        5 | 6 => Some(80),
        7 => Some(92),
        8 => Some(110),
        10 => Some(75),
        _ => None,
    }
}

/// Whether Table 16 has this row for this kind: struts have rows 1 to 3, ties rows 4 and 5.
pub fn knows_table_16_row(kind: Kind, row: u64) -> bool {
    match kind {
        Kind::Compression | Kind::CompressionWithBending => (1..=3).contains(&row),
        Kind::Tension | Kind::TensionWithBending => (4..=5).contains(&row),
        Kind::Bending => false,
    }
}

/// The greatest slenderness that a row of Table 16 allows.
pub fn slenderness_limit(row: u64) -> u64 {
    match row {
        1 => 120,
        2 | 4 => 150,
        _ => 200,
    }
}

/// The moisture factor, hundredths. Each bound belongs to the drier class.
pub fn moisture_factor(percent: u64) -> u64 {
    match percent {
        0..=12 => 100,
        13..=15 => 90,
        16..=20 => 85,
        _ => 75,
    }
}

/// Bending strength of Table 7, kPa.
pub fn bending_strength(grade: Grade) -> u64 {
    match grade {
        Grade::K45 => 39_000,
        Grade::K40 => 34_000,
        Grade::K35 => 30_000,
    }
}

/// Compression strength of Table 7, kPa.
pub fn compression_strength(grade: Grade) -> u64 {
    match grade {
        Grade::K45 => 32_000,
        Grade::K40 => 30_000,
        Grade::K35 => 27_000,
    }
}

/// Tension strength of Table 7, kPa.
pub fn tension_strength(grade: Grade) -> u64 {
    match grade {
        Grade::K45 => 31_000,
        Grade::K40 => 27_000,
        Grade::K35 => 24_000,
    }
}

/// Shear strength of Table 7, kPa.
pub fn shear_strength(grade: Grade) -> u64 {
    match grade {
        Grade::K45 => 4_100,
        Grade::K40 | Grade::K35 => 3_900,
    }
}
