//! A count of beams is no limit, though n often heads it and 100 to 500 of them lie within the limit's range.
use super::{beam, sheet};
use crate::common;
use crate::floor::{floor, stopped, HEADER};
use lvl_sheet::headings::{self, read_in, Heading, Meaning};
use lvl_sheet::{floor_beams, members};

const COUNTS: [&str; 12] = [
    "n, шт",
    "n, pcs",
    "n шт.",
    "n (шт.)",
    "n [pcs]",
    "n, в шт",
    "n, ШТ",
    "L/n, шт",
    "предел n, шт",
    "span/n (pcs)",
    "n, штук",
    "n beams",
];

#[test]
fn as_a_heading_it_is_not_known() {
    for heading in COUNTS {
        let meaning = read_in(floor_beams::schema(), heading);
        assert_eq!(meaning, Meaning::Unknown, "{heading}");
        let content = format!("{HEADER},Mn,\"{heading}\"\n{}\n", beam(1_800_000, 200));
        for options in [&[][..], &["--csv"]] {
            let message = stopped(&content, options);
            let problem = format!("column 11, \"{heading}\": not a known heading\n");
            assert!(message.contains(&problem), "{message}");
        }
        // It is passed over like any other column of the office.
        let without = floor(format!("{HEADER},Mn\n{}\n", beam(1_800_000, 200)), &[]);
        assert!(without.line("B1 ").contains("refused"), "{}", without.out);
        let run = floor(&content, &["--skip", heading]);
        let reason = "refusal 10, limit n: blank (wanted: 100 to 500)";
        assert!(run.line("B1 ").ends_with(reason), "{}", run.out);
    }
    for heading in ["n", "n, –", "n (-)", "L/n, –"] {
        let meaning = read_in(floor_beams::schema(), heading);
        assert_eq!(meaning, Meaning::Known(Heading::Cell(10)), "{heading}");
    }
}

/// Nor in a line of units above or below the header.
#[test]
fn in_the_column_of_the_limit() {
    for pieces in ["шт", "шт.", "pcs"] {
        let lines = sheet(&[beam(1_800_000, 200)]);
        let (header, beams) = lines.split_once('\n').unwrap();
        let units = format!(",N/m,N/m,mm,–,%,‰,mm,mm,N·mm,{pieces}");
        for content in [
            format!("{header}\n{units}\n{beams}"),
            format!("{units}\n{header}\n{beams}"),
            format!(",,,,,,,,,,\"кол-во, {pieces}\"\n{header}\n{beams}"),
        ] {
            let message = stopped(&content, &[]);
            assert!(message.ends_with("\": limit n has no unit\n"), "{message}");
        }
        // Above other columns pieces are no unit of theirs.
        let elsewhere = format!("{pieces},,,,{pieces},,,,,,\n{lines}");
        let run = floor(elsewhere, &[]);
        assert_eq!(run.code, 0, "{}", run.err);
    }
}

/// A member's dowels are counted.
#[test]
fn a_count_of_members_is_one() {
    for heading in ["r, шт", "r (pcs)", "dowels across, шт."] {
        let known = Meaning::Known(Heading::Cell(16));
        assert_eq!(headings::read(heading), known, "{heading}");
        assert_eq!(read_in(members::schema(), heading), known);
    }
    let header = common::HEADER.replace(",r,", ",\"r, шт\",");
    let content = format!("{header}\n{}\n", common::ROW_E);
    assert_eq!(common::table(content).code, 0);
}
