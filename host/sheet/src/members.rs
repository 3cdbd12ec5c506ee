//! A sheet of members, a row of 22 cells each.
use crate::answers::{CHECK, COUNT, REFUSAL, REFUSED_CELL, UTILISATION, VERDICT};
use crate::cell_numbers::KIND;
use crate::heading_names;
use crate::judgement::Judgement;
use crate::row::SheetRow;
use crate::schema::{Cell, Schema};
use crate::table::{TableColumn, NONE};
use crate::table_lines::Side;
use crate::units::Unit;
use crate::used_strengths::UsedStrengths;
use crate::{strength_table, verdict_table, words};
use lvl_addin::answer::Refusal;
use lvl_addin::entry;
use lvl_addin::row::{HostRow, CELLS};
use std::sync::{LazyLock, OnceLock};

/// By which checks, whatever the kind.
const STRENGTHS_USED: &str = "\
Bending is used by the check of bending (7) and of bending with an axial force (11), compression by buckling (9, 10) and, in kind 4, 11,
tension by net tension (5), side pieces (6) and, in kind 5, 11, shear by the check of shear (8).";

pub fn schema() -> &'static Schema {
    static SCHEMA: LazyLock<Schema> = LazyLock::new(|| Schema {
        one: "member",
        name_heading: "Member",
        asked_for: "a sheet of members is judged without --floor",
        names: heading_names::MEMBER.to_vec(),
        cells: (1..=CELLS).map(Cell::of_row).collect(),
        kind: Some(KIND),
        in_first_cell: &["kind"],
        foreign_loads: &[Unit::ForeignForce],
        words_of_a_header: None,
        loads_wanted: "forces have to be in N, moments in N·mm",
        judge,
        strengths,
        whole_row_reason,
        answers: vec![VERDICT, CHECK, UTILISATION, COUNT, REFUSAL, REFUSED_CELL],
        verdict_table: verdict_table::layout(
            vec![
                KINDS,
                verdict_table::SIZES,
                verdict_table::VERDICT,
                verdict_table::UTILISATION,
                DOWELS,
            ],
            vec![],
        ),
        strength_table: strength_table::layout(STRENGTHS_USED),
        on_request: None,
        by_key: OnceLock::new(),
    });
    &SCHEMA
}

fn judge(cells: &[Option<f64>]) -> Result<Judgement, Refusal> {
    entry::check(row(cells)).map(Judgement::Member)
}

fn strengths(cells: &[Option<f64>]) -> Result<UsedStrengths, Refusal> {
    UsedStrengths::of_row(row(cells))
}

fn row(cells: &[Option<f64>]) -> &HostRow {
    cells.try_into().expect("as many as a row has")
}

fn whole_row_reason(refusal: Refusal, _: &SheetRow) -> String {
    format!("refusal {} of the whole row", refusal.number)
}

const KINDS: TableColumn<Judgement> = TableColumn {
    heading: "Kind",
    width: 21,
    side: Side::Left,
    text: |row, _| {
        let kind = row.kind().and_then(words::kind);
        kind.unwrap_or(NONE).to_owned()
    },
};

const DOWELS: TableColumn<Judgement> = TableColumn {
    heading: "Dowels",
    width: 6,
    side: Side::Right,
    text: |_, judged| match judged {
        Ok(found) if found.strength().count > 0 => found.strength().count.to_string(),
        _ => NONE.to_owned(),
    },
};
