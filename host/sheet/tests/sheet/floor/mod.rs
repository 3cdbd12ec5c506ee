//! Floor beams, `sheet --floor`: what is theirs alone. What they share with members is tested with members, and here in part.
use crate::common::{Run, Scratch};
use lvl_addin::floor_beam::{BeamVerdict, HostBeam, BEAM_CELLS};
use lvl_addin::row::{HostRow, CELLS};
use std::path::Path;

mod answer_columns;
mod headings;
mod help;
mod other_sheets;
mod refusals;
mod sag;
mod table;
mod units;

pub const HEADER: &str =
    "beam,permanent and long-term load,remaining load,span,grade,moisture,factor,b,h";

/// Exactly 80 percent of its load is permanent or long-term.
pub const BEAM: &str = "B1,1600,400,4200,1,12,1000,45,160";

/// How the table's line of `BEAM` ends.
pub const JUDGED: &str = "   2000  В (3)      4.41     4.20  pass        89.3  bending, 7.9";

/// The example by strength alone: without its last two columns, which ask for sag.
pub fn example() -> String {
    let before_sag = |line: &str| {
        let (line, _n) = line.rsplit_once(',').unwrap();
        let (line, _moment) = line.rsplit_once(',').unwrap();
        format!("{line}\n")
    };
    example_with_sag().lines().map(before_sag).collect()
}

pub fn example_with_sag() -> String {
    let path = Path::new(env!("CARGO_MANIFEST_DIR")).join("../../examples/floor-beams.csv");
    std::fs::read_to_string(path).unwrap()
}

pub fn floor(content: impl AsRef<[u8]>, options: &[&str]) -> Run {
    Scratch::new(content.as_ref()).run(&[&["--floor"], options].concat())
}

pub fn table(content: impl AsRef<[u8]>) -> Run {
    floor(content, &[])
}

/// The table of beams below the header.
pub fn table_of(beams: &[&str]) -> Run {
    table(format!("{HEADER}\n{}\n", beams.join("\n")))
}

/// The message of a sheet that is not judged.
pub fn stopped(content: &str, options: &[&str]) -> String {
    let run = floor(content, options);
    assert_eq!((run.code, run.out.as_str()), (2, ""), "{content}");
    run.err
}

/// The cells of a beam after its name, which may be in quotes.
pub fn cells_of(beam: &str) -> HostBeam {
    let quoted = beam.strip_prefix('"').map(|name| name.split_once("\","));
    let (_, given) = quoted.unwrap_or(beam.split_once(',')).unwrap();
    let cell = |text: &str| (!text.is_empty()).then(|| text.parse().unwrap_or(f64::NAN));
    let mut cells = [None; BEAM_CELLS];
    for (to, text) in cells.iter_mut().zip(given.split(',')) {
        *to = cell(text);
    }
    cells
}

/// The row of kind 2 that request 1 makes of a beam.
pub fn row_of(beam: &HostBeam, found: &BeamVerdict) -> HostRow {
    let [_, _, _, grade, moisture, factor, width, height] = *beam;
    let mut row = [None; CELLS];
    row[0] = Some(2.0);
    row[1] = grade;
    row[2] = Some(found.regime.into());
    row[3] = moisture;
    row[4] = factor;
    row[5] = width;
    row[6] = height;
    row[8] = Some(found.moment as f64);
    row[9] = Some(found.shear as f64);
    row
}
