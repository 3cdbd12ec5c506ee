//! The strengths that checks use, `sheet --strengths`: what is its own. How a sheet is read is tested with the table, and here in part.
use crate::common::{Run, Scratch, HEADER};

mod addin;
mod command_line;
mod exit_codes;
mod floor;
mod reading;
mod refusals;
mod rule;
mod table;

pub fn strengths(content: impl AsRef<[u8]>, options: &[&str]) -> Run {
    Scratch::new(content.as_ref()).run(&[&["--strengths"], options].concat())
}

/// The strengths of rows below the header.
pub fn strengths_of(rows: &[&str]) -> Run {
    strengths(format!("{HEADER}\n{}\n", rows.join("\n")), &[])
}

/// What stands in a line's columns: the name, the grade and so on.
pub fn columns(line: &str) -> Vec<&str> {
    let parts = line.split("  ").map(str::trim);
    parts.filter(|part| !part.is_empty()).collect()
}

/// The lines of rows: below the heading and the rule under it, above the remarks.
pub fn row_lines(run: &Run) -> Vec<&str> {
    let lines = run.out.lines().skip(2);
    lines.take_while(|line| !line.is_empty()).collect()
}

/// Which of bending, compression, tension and shear the checks of a kind use.
pub fn used_by(kind: usize) -> [bool; 4] {
    match kind {
        1 => [false, false, true, false],
        2 => [true, false, false, true],
        3 => [false, true, false, false],
        4 => [true, true, false, true],
        5 => [true, false, true, true],
        _ => panic!("no kind {kind}"),
    }
}

/// The columns of bending, compression, tension and shear for a row of this kind.
pub fn shown_for(kind: usize, all: [String; 4]) -> [String; 4] {
    let mut used = used_by(kind).into_iter();
    all.map(|strength| match used.next() {
        Some(true) => strength,
        _ => "–".to_owned(),
    })
}
