//! Sag in a sheet of floor beams, which some beams ask for in two columns of their own.
use super::{cells_of, floor, row_of, BEAM, HEADER};
use crate::common::Run;
use lvl_addin::answer::Refusal;
use lvl_addin::entry;
use lvl_addin::floor_beam::BeamVerdict;
use lvl_addin::sag::{HostSag, SagVerdict};

mod addin;
mod answer_columns;
mod both_verdicts;
mod counts;
mod example;
mod headings;
mod help;
mod moment_doubts;
mod order;
mod refusals;
mod table;
mod unasked;
mod units;
mod worked;

/// The header and lines of beams, each with Mn and n.
pub fn sheet(beams: &[String]) -> String {
    format!("{HEADER},Mn,n\n{}\n", beams.join("\n"))
}

pub fn table(beams: &[String]) -> Run {
    floor(sheet(beams), &[])
}

pub fn csv(beams: &[String]) -> Run {
    floor(sheet(beams), &["--csv"])
}

/// A beam's line with what its last two columns hold.
pub fn asking(beam: &str, moment: impl ToString, n: impl ToString) -> String {
    format!("{beam},{},{}", moment.to_string(), n.to_string())
}

/// `BEAM` with what its last two columns hold.
pub fn beam(moment: impl ToString, n: impl ToString) -> String {
    asking(BEAM, moment, n)
}

/// What the answer columns hold in a line of an output of `--csv`, by their headings.
pub fn answer<'a>(out: &'a str, line: &'a str, heading: &str) -> &'a str {
    let header = out.lines().next().unwrap();
    let from_end = header.rsplit(',').position(|text| text == heading);
    let from_end = from_end.unwrap_or_else(|| panic!("no {heading} in {header}"));
    line.rsplit(',').nth(from_end).unwrap()
}

/// The cells that a beam's line, which has both columns, asks for the sag with: its span, Mn and n.
pub fn sag_cells(beam: &str) -> HostSag {
    let mut last = beam.rsplit(',');
    let cell = |text: &str| (!text.is_empty()).then(|| text.parse().unwrap_or(f64::NAN));
    let [n, moment] = [(); 2].map(|()| cell(last.next().unwrap()));
    [cells_of(beam)[2], moment, n]
}

/// The sag of a beam whose strength is judged, where it asks for it.
pub fn sag_of(beam: &str, found: &BeamVerdict) -> Option<Result<SagVerdict, Refusal>> {
    let cells = sag_cells(beam);
    let is_asked_for = cells[1].is_some() || cells[2].is_some();
    is_asked_for.then(|| entry::check_sag(&row_of(&cells_of(beam), found), &cells))
}

/// The sag of a beam that is not refused.
pub fn judged(beam: &str) -> SagVerdict {
    let found = entry::check_floor_beam(&cells_of(beam)).unwrap();
    sag_of(beam, &found).expect("asked for").unwrap()
}

/// The greatest Mn with which the sag of `BEAM` passes, by the formula of request 3.
pub fn greatest_moment(n: u64) -> u64 {
    let sag = judged(&beam(1, n));
    1_000_000 * sag.limit_moment / u64::from(sag.shear_factor)
}
