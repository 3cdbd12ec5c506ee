//! The table of floor beams in a sheet in which one asks for its sag: strength and sag, then the verdict on both.
use crate::floor_beams::{sag, strength, LIMIT, UNFACTORED_MOMENT};
use crate::judgement::Judgement;
use crate::number::Typed;
use crate::row::SheetRow;
use crate::table::{typed_as, whole_number, Layout, TableColumn, NONE};
use crate::table_lines::Side;
use crate::verdict_table::{self, pass_or_fail, percent, REFUSED};
use crate::{floor_table, load_reasons, moment_doubts};

/// A greater moment is outside its range.
const GREATEST_SHOWN: u64 = 10_000_000_000;

pub fn layout() -> Layout<Judgement> {
    let verdicts = [
        STRENGTHS,
        MOMENTS,
        LIMITS,
        SAGS,
        verdict_table::VERDICT,
        verdict_table::UTILISATION,
    ];
    Layout {
        last,
        doubt: moment_doubts::of_row,
        ..verdict_table::layout(
            floor_table::OF_A_BEAM.into_iter().chain(verdicts).collect(),
            vec![
                "Strength is for design loads, by bending (7) or shear (8). Sag is for Mn, with the limit span / n.",
                "Mn is the greatest moment of the beam's unfactored loads, the same loads as typed, with their safety factors at 1.",
                "Where neither Mn nor n is filled sag is not checked. Lateral stability is not checked.",
            ],
        )
    }
}

/// The check that governs, and why the sag of a beam that fails in strength is refused.
fn last(row: &SheetRow, judgement: &Judgement) -> String {
    let governing = verdict_table::check(row, judgement);
    match sag(&Ok(*judgement)) {
        Some(Err(refusal)) if !judgement.strength().passes => {
            let reason = load_reasons::reason(refusal, row);
            format!("{governing}; sag: {reason}")
        }
        _ => governing,
    }
}

const STRENGTHS: TableColumn<Judgement> = TableColumn {
    heading: "Strength, %",
    width: 16,
    side: Side::Left,
    text: |_, judged| match strength(judged).map(|beam| beam.verdict) {
        Some(verdict) => {
            let figure = with_figure(verdict.passes, verdict.utilisation);
            format!("{figure} ({})", verdict.check)
        }
        None => NONE.to_owned(),
    },
};

const MOMENTS: TableColumn<Judgement> = TableColumn {
    heading: "Mn, kN·m",
    width: 8,
    side: Side::Right,
    text: |row, _| {
        let in_range = |moment: &u64| *moment <= GREATEST_SHOWN;
        typed_as(row.cell(UNFACTORED_MOMENT), |moment| {
            Some(moment).filter(in_range).map(floor_table::in_kn_m)
        })
    },
};

const LIMITS: TableColumn<Judgement> = TableColumn {
    heading: "n",
    width: 3,
    side: Side::Right,
    text: |row, _| whole_number(row.cell(LIMIT), 3),
};

const SAGS: TableColumn<Judgement> = TableColumn {
    heading: "Sag, %",
    width: 12,
    side: Side::Left,
    text: |row, judged| match sag(judged) {
        Some(Ok(sag)) => with_figure(sag.passes, sag.utilisation),
        Some(Err(_)) => REFUSED.to_owned(),
        None if is_asked_for(row) => NOT_JUDGED.to_owned(),
        None => NONE.to_owned(),
    },
};

/// Stands for a sag that is asked for of a beam that is refused.
const NOT_JUDGED: &str = "not judged";

fn is_asked_for(row: &SheetRow) -> bool {
    [UNFACTORED_MOMENT, LIMIT]
        .into_iter()
        .any(|place| row.cell(place) != Typed::Blank)
}

/// A verdict and its utilisation, each at its place.
fn with_figure(passes: bool, utilisation: u32) -> String {
    format!("{} {:>7}", pass_or_fail(passes), percent(utilisation))
}
