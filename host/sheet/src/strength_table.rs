//! The table of strengths: what each follows from, what the checks use of it, and what rounding dropped.
use crate::cell_numbers::{GRADE, MOISTURE, OFFICE_FACTOR, REGIME};
use crate::judgement::Refused;
use crate::row::{Outcome, SheetRow};
use crate::table::{typed_as, whole_number, Layout, TableColumn, NONE, UNSHOWN};
use crate::table_lines::Side;
use crate::used_strengths::UsedStrengths;
use crate::words;
use lvl_addin::strengths::{Strength, STRENGTH_DIVISOR};

/// What is dropped has no more decimals: the divisor is a power of ten.
const DECIMALS: usize = STRENGTH_DIVISOR.ilog10() as usize;

const SUM: &str = "R in full is the sum of both numbers, exactly; the checks use the first.";

/// The table, with a remark on which checks use which strength.
pub fn layout(used_by: &'static str) -> Layout<UsedStrengths> {
    Layout {
        find: |row| row.strengths(),
        outcome: Outcome::of_strengths,
        columns: vec![
            GRADES,
            REGIMES,
            MOISTURES,
            FACTORS,
            BENDING,
            COMPRESSION,
            TENSION,
            SHEAR,
        ],
        last_heading: "Why refused",
        last: |_, _| String::new(),
        doubt: |_, _| None,
        remarks: vec![SUM, used_by],
    }
}

const GRADES: TableColumn<UsedStrengths> = TableColumn {
    heading: "Grade",
    width: 5,
    side: Side::Left,
    text: |row, _| typed_as(row.numbered(GRADE), words::grade),
};

const REGIMES: TableColumn<UsedStrengths> = TableColumn {
    heading: "Regime",
    width: 6,
    side: Side::Left,
    text: |row, found| match found {
        Ok(used) => words::regime_with_code(used.regime).unwrap_or(UNSHOWN.to_owned()),
        Err(_) => typed_as(row.numbered(REGIME), words::regime_with_code),
    },
};

const MOISTURES: TableColumn<UsedStrengths> = TableColumn {
    heading: "Moist. %",
    width: 8,
    side: Side::Right,
    text: |row, _| whole_number(row.numbered(MOISTURE), 8),
};

const FACTORS: TableColumn<UsedStrengths> = TableColumn {
    heading: "Factor ‰",
    width: 8,
    side: Side::Right,
    text: |row, _| whole_number(row.numbered(OFFICE_FACTOR), 8),
};

const BENDING: TableColumn<UsedStrengths> = strength("Bending, kPa", |_, found| {
    in_full(found, |used| used.bending)
});

const COMPRESSION: TableColumn<UsedStrengths> = strength("Compression, kPa", |_, found| {
    in_full(found, |used| used.compression)
});

const TENSION: TableColumn<UsedStrengths> = strength("Tension, kPa", |_, found| {
    in_full(found, |used| used.tension)
});

const SHEAR: TableColumn<UsedStrengths> =
    strength("Shear, kPa", |_, found| in_full(found, |used| used.shear));

type Found = Result<UsedStrengths, Refused>;

const fn strength(
    heading: &'static str,
    text: fn(&SheetRow, &Found) -> String,
) -> TableColumn<UsedStrengths> {
    TableColumn {
        heading,
        // Five digits, a plus sign and what is dropped.
        width: 5 + 3 + 2 + DECIMALS,
        side: Side::Right,
        text,
    }
}

/// "24710 + 0.4000000": what the checks use, and what rounding dropped.
fn in_full(found: &Found, which: fn(&UsedStrengths) -> Option<Strength>) -> String {
    match found.as_ref().ok().and_then(which) {
        Some(Strength { kpa, remainder }) => format!("{kpa} + 0.{remainder:0DECIMALS$}"),
        None => NONE.to_owned(),
    }
}
