//! The table of floor beams, and its columns that a table with their sag has too.
use crate::floor_beams::{strength, total_load, SPAN};
use crate::judgement::Judgement;
use crate::table::{whole_number, Layout, TableColumn, NONE, UNSHOWN};
use crate::table_lines::Side;
use crate::{verdict_table, words};
use lvl_addin::floor_beam::BeamVerdict;

/// A greater total load is not shown in the table, which has no room for it.
const GREATEST_SHOWN: u64 = 9_999_999;

pub fn layout() -> Layout<Judgement> {
    let verdict = [verdict_table::VERDICT, verdict_table::UTILISATION];
    verdict_table::layout(
        OF_A_BEAM.into_iter().chain(verdict).collect(),
        vec!["Strength alone, for design loads: sag and lateral stability are not checked."],
    )
}

/// What a beam is, and what is made of its loads.
pub const OF_A_BEAM: [TableColumn<Judgement>; 6] = [
    LENGTHS,
    verdict_table::SIZES,
    TOTAL_LOADS,
    REGIMES,
    MOMENTS,
    SHEARS,
];

const LENGTHS: TableColumn<Judgement> = TableColumn {
    heading: "Span, mm",
    width: 8,
    side: Side::Right,
    text: |row, _| whole_number(row.cell(SPAN), 6),
};

const TOTAL_LOADS: TableColumn<Judgement> = TableColumn {
    heading: "q, N/m",
    width: 7,
    side: Side::Right,
    text: |row, _| match total_load(row) {
        Some(total) if total <= GREATEST_SHOWN => total.to_string(),
        Some(_) => UNSHOWN.to_owned(),
        None => NONE.to_owned(),
    },
};

const REGIMES: TableColumn<Judgement> = TableColumn {
    heading: "Regime",
    width: 6,
    side: Side::Left,
    text: |_, judged| {
        let lettered = |beam: &BeamVerdict| words::regime_with_code(beam.regime.into());
        strength(judged)
            .and_then(lettered)
            .unwrap_or(NONE.to_owned())
    },
};

const MOMENTS: TableColumn<Judgement> = TableColumn {
    heading: "M, kN·m",
    width: 7,
    side: Side::Right,
    text: |_, judged| strength(judged).map_or(NONE.to_owned(), |beam| in_kn_m(beam.moment)),
};

const SHEARS: TableColumn<Judgement> = TableColumn {
    heading: "Q, kN",
    width: 7,
    side: Side::Right,
    text: |_, judged| strength(judged).map_or(NONE.to_owned(), |beam| in_kn(beam.shear)),
};

/// N·mm in kN·m.
pub fn in_kn_m(moment: u64) -> String {
    hundredths(moment.div_ceil(10_000))
}

fn in_kn(force: u64) -> String {
    hundredths(force.div_ceil(10))
}

/// With two decimals: three could be read in two ways.
fn hundredths(number: u64) -> String {
    format!("{}.{:02}", number / 100, number % 100)
}
