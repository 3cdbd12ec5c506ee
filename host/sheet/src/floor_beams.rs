//! A sheet of floor beams: each by its loads and span, judged as a row of kind 2, and by its sag where it is asked for.
use crate::cell_numbers::{GRADE, HEIGHT, MOISTURE, OFFICE_FACTOR, WIDTH};
use crate::heading_names::{self, CellNames};
use crate::judgement::{FloorBeam, Judged, Judgement};
use crate::row::SheetRow;
use crate::schema::{Cell, OnRequest, Schema};
use crate::units::Unit;
use crate::used_strengths::UsedStrengths;
use crate::words::{self, CellWords};
use crate::{
    floor_answers, floor_row, floor_table, load_reasons, sag_answers, sag_table, strength_table,
};
use lvl_addin::answer::Refusal;
use lvl_addin::entry;
use lvl_addin::floor_beam::{BeamVerdict, HostBeam, BEAM_CELLS};
use lvl_addin::sag::SagVerdict;
use std::sync::{LazyLock, OnceLock};

/// The places of the cells that no row has.
pub const LOADS: [usize; 2] = [1, 2];
pub const SPAN: usize = 3;

/// The cells of a row that follow them, by their numbers there.
pub const OF_ROW: [usize; 5] = [GRADE, MOISTURE, OFFICE_FACTOR, WIDTH, HEIGHT];

/// The places of the cells after the beam's, one of which filled asks for the sag.
pub const UNFACTORED_MOMENT: usize = BEAM_CELLS + 1;
pub const LIMIT: usize = BEAM_CELLS + 2;

/// Names and two more columns: by their order, loads could be exchanged.
const WORDS_OF_A_HEADER: usize = 3;

pub fn schema() -> &'static Schema {
    static SCHEMA: LazyLock<Schema> = LazyLock::new(|| Schema {
        one: "beam",
        name_heading: "Beam",
        asked_for: "a sheet of floor beams is judged with --floor",
        names: [heading_names::BEAM, heading_names::MEMBER].concat(),
        cells: cells(),
        kind: None,
        in_first_cell: &["load", "нагрузк"],
        foreign_loads: &[Unit::ForeignForce, Unit::ForeignLineLoad],
        words_of_a_header: Some(WORDS_OF_A_HEADER),
        loads_wanted: "loads have to be in N/m",
        judge,
        strengths,
        whole_row_reason: load_reasons::reason,
        answers: [&floor_answers::ALL[..], &sag_answers::ALL].concat(),
        verdict_table: floor_table::layout(),
        strength_table: strength_table::layout(
            "Bending is used by the check of bending (7), shear by the check of shear (8).",
        ),
        on_request: Some(OnRequest {
            cells_before: BEAM_CELLS,
            answers_before: floor_answers::ALL.len(),
            loads_wanted: "loads have to be in N/m, moments in N·mm",
            verdict_table: sag_table::layout(),
        }),
        by_key: OnceLock::new(),
    });
    &SCHEMA
}

fn cells() -> Vec<Cell> {
    of_no_row(&words::FLOOR, &heading_names::FLOOR)
        .chain(OF_ROW.map(Cell::of_row))
        .chain(of_no_row(&words::SAG, &heading_names::SAG))
        .collect()
}

fn of_no_row(
    words: &'static [CellWords],
    names: &'static [CellNames],
) -> impl Iterator<Item = Cell> {
    words.iter().zip(names).map(|(words, names)| Cell {
        number: None,
        words,
        names,
    })
}

fn judge(cells: &[Option<f64>]) -> Result<Judgement, Refusal> {
    let beam = beam(cells);
    let strength = entry::check_floor_beam(beam)?;
    let [span, moment, limit] = [SPAN, UNFACTORED_MOMENT, LIMIT].map(|place| cells[place - 1]);
    let is_asked_for = moment.is_some() || limit.is_some();
    let sag = is_asked_for.then(|| {
        let row = floor_row::of_beam(beam, &strength);
        entry::check_sag(&row, &[span, moment, limit])
    });
    Ok(Judgement::FloorBeam(FloorBeam { strength, sag }))
}

fn strengths(cells: &[Option<f64>]) -> Result<UsedStrengths, Refusal> {
    let beam = beam(cells);
    let found = entry::check_floor_beam(beam)?;
    UsedStrengths::of_row(&floor_row::of_beam(beam, &found))
}

/// The cells of the beam, without those that ask for its sag.
fn beam(cells: &[Option<f64>]) -> &HostBeam {
    let (beam, _) = cells.split_at(BEAM_CELLS);
    beam.try_into().expect("as many as a floor beam has")
}

/// The total load q, for people: the add-in forms its own.
pub fn total_load(row: &SheetRow) -> Option<u64> {
    let [long_term, remaining] = LOADS.map(|place| row.cell(place).whole());
    long_term?.checked_add(remaining?)
}

/// What is found of a beam's strength, unless it is refused.
pub fn strength(judged: &Judged) -> Option<&BeamVerdict> {
    found(judged).map(|beam| &beam.strength)
}

/// What is found of a beam's sag, where it is asked for and the strength is judged.
pub fn sag(judged: &Judged) -> Option<Result<SagVerdict, Refusal>> {
    found(judged)?.sag
}

fn found(judged: &Judged) -> Option<&FloorBeam> {
    match judged {
        Ok(Judgement::FloorBeam(beam)) => Some(beam),
        _ => None,
    }
}
