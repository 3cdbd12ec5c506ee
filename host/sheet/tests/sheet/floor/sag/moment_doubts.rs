//! Notes on moments that are above that of the design loads, or far below it: they change no answer and no exit code.
use super::{asking, beam, csv, sheet, table};
use crate::floor::{cells_of, floor, BEAM};
use lvl_addin::entry;

const BELOW: &str = "Mn is below a tenth of M: is it in N·mm?";
const ABOVE: &str = "Mn is above M: is it in N·mm, and of unfactored loads?";

fn moment() -> u64 {
    entry::check_floor_beam(&cells_of(BEAM)).unwrap().moment
}

#[test]
fn at_the_turns() {
    let m = moment();
    assert_eq!(m % 10, 0);
    for (typed, doubt) in [
        (1, Some(BELOW)),
        (m / 10 - 1, Some(BELOW)),
        (m / 10, None),
        (m, None),
        (m + 1, Some(ABOVE)),
        (10_000_000_000, Some(ABOVE)),
    ] {
        let line = beam(typed, 200);
        let note = doubt.map_or(String::new(), |doubt| {
            format!("sheet: note: line 2, \"B1\": {doubt}\n")
        });
        let run = table(std::slice::from_ref(&line));
        assert_eq!(run.err, note, "{typed}");
        let written = csv(std::slice::from_ref(&line));
        assert_eq!(written.err, format!("{note}{}\n", run.summary()), "{typed}");
        assert_eq!(run.code, written.code);
        // Strengths have nothing to do with it.
        assert_eq!(floor(sheet(&[line]), &["--strengths"]).err, "");
    }
    // A beam that passes, and ends as it did.
    assert_eq!(table(&[beam(1, 200)]).code, 0);
}

/// M is found where strength is judged: whether it passes, and whatever becomes of the sag.
#[test]
fn wherever_m_is_found() {
    let fails = "B1,1601,400,4200,1,12,1000,45,160";
    for line in [asking(fails, 356, 200), beam(356, ""), beam(356, 99)] {
        let note = format!("sheet: note: line 2, \"B1\": {BELOW}\n");
        assert_eq!(table(&[line]).err, note);
    }
    let refused = "B1,1600,400,499,1,12,1000,45,160";
    for line in [
        asking(refused, 356, 200),
        beam("x", 200),
        beam(35.6, 200),
        beam("", 200),
    ] {
        assert_eq!(table(&[line]).err, "");
    }
}

/// One line for each doubt, whatever the number of beams.
#[test]
fn with_the_count_of_the_beams() {
    let lines = [
        beam(2_000_000, 200),
        beam(356, 200),
        beam(9_000_000, 200)
            .replace("B1", "B3, \"the last\"")
            .replace(", ", " "),
        beam(356, 200),
    ];
    let note = |beams: &str, doubt: &str| format!("sheet: note: {beams}: {doubt}\n");
    let above = note("line 4, \"B3 \"the last\"\"", ABOVE);
    let below = note("line 3, \"B1\", and 1 beam more", BELOW);
    assert_eq!(table(&lines).err, format!("{above}{below}"));
    let many = vec![beam(356, 200); 1500];
    let below = note("line 2, \"B1\", and 1499 beams more", BELOW);
    assert_eq!(table(&many).err, below);
    let unnamed = floor(format!("{}\n", &beam(356, 200)[3..]), &["--by-position"]);
    assert_eq!(unnamed.err, note("line 1", BELOW));
}
