//! The strengths that are shown are those of the add-in, for every row of both examples.
use super::{columns, row_lines, shown_for, strengths};
use crate::common::{cells_of, hall_roof, table};
use crate::floor::{self, row_of};
use lvl_addin::answer::Refusal;
use lvl_addin::entry;
use lvl_addin::strengths::{Strength, Strengths};
use lvl_sheet::floor_row;

/// What stands in a row's last columns: its strengths, or dashes.
fn shown(found: Result<Strengths, Refusal>, kind: usize) -> [String; 4] {
    let in_full = |strength: Strength| {
        let seven = format!("{}", 10_000_000 + strength.remainder);
        format!("{} + 0.{}", strength.kpa, &seven[1..])
    };
    match found {
        Ok(all) => shown_for(
            kind,
            [all.bending, all.compression, all.tension, all.shear].map(in_full),
        ),
        Err(_) => [(); 4].map(|()| "–".to_owned()),
    }
}

#[test]
fn the_hall_roof() {
    let sheet = hall_roof();
    let run = strengths(&sheet, &[]);
    assert_eq!((run.code, run.err.as_str()), (1, ""));
    assert_eq!(run.summary(), "63 rows: 56 with strengths, 7 refused");
    let lines = row_lines(&run);
    let rows: Vec<&str> = sheet.lines().skip(1).collect();
    assert_eq!((lines.len(), rows.len()), (63, 63));
    let judged = table(&sheet);
    for ((line, row), judged) in lines.iter().zip(&rows).zip(row_lines(&judged)) {
        let cells = cells_of(row);
        let found = entry::strengths(&cells);
        assert_eq!(found.err(), entry::check(&cells).err(), "{row}");
        let kind = cells[0].unwrap() as usize;
        assert_eq!(columns(line)[5..9], shown(found, kind), "{row}");
        // The reason is the table's.
        match found {
            Ok(_) => assert_eq!(columns(line).len(), 9, "{line}"),
            Err(_) => assert_eq!(columns(line)[9..], columns(judged)[6..], "{line}"),
        }
    }
}

#[test]
fn the_floor_beams() {
    let sheet = floor::example();
    let run = strengths(&sheet, &["--floor"]);
    assert_eq!((run.code, run.err.as_str()), (1, ""));
    assert_eq!(run.summary(), "38 rows: 28 with strengths, 10 refused");
    let lines = row_lines(&run);
    assert_eq!(lines.len(), 38);
    let judged = floor::table(&sheet);
    let beams = sheet.lines().skip(1);
    for ((line, beam), judged) in lines.iter().zip(beams).zip(row_lines(&judged)) {
        let cells = floor::cells_of(beam);
        let columns = columns(line);
        match entry::check_floor_beam(&cells) {
            Ok(found) => {
                let row = row_of(&cells, &found);
                // The beam's verdict is the row's.
                assert_eq!(entry::check(&row), Ok(found.verdict), "{beam}");
                assert_eq!(floor_row::of_beam(&cells, &found), row, "{beam}");
                let regime = ["Б (2)", "В (3)"][found.regime as usize - 2];
                assert_eq!(columns[2], regime, "{beam}");
                assert_eq!(columns[5..], shown(entry::strengths(&row), 2), "{beam}");
            }
            Err(refusal) => {
                assert_eq!(columns[2], "–", "{beam}");
                assert_eq!(columns[5..9], shown(Err(refusal), 2), "{beam}");
                assert!(judged.ends_with(columns[9]), "{judged}");
                assert_eq!(columns.len(), 10, "{line}");
            }
        }
    }
}
