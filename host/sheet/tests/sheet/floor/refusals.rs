//! Why a floor beam is refused, in words: which of the loads, their total, the span or the cells is to blame.
use super::{cells_of, table, table_of, BEAM, HEADER};
use lvl_addin::answer::Refusal;
use lvl_addin::entry;
use lvl_addin::floor_beam::HostBeam;
use lvl_sheet::columns::{Basis, Columns};
use lvl_sheet::lines::Line;
use lvl_sheet::row::SheetRow;
use lvl_sheet::{floor_beams, load_reasons, words};

/// `BEAM` with another text in a column.
fn with(column: usize, text: &str) -> String {
    let mut fields: Vec<&str> = BEAM.split(',').collect();
    fields[column] = text;
    fields.join(",")
}

#[test]
fn what_is_wrong_with_a_load_or_the_span() {
    #[rustfmt::skip]
    let reasons = [
        (with(1, ""), "permanent and long-term load: blank (wanted: from 0 N/m)"),
        (with(1, "1600.5"), "permanent and long-term load: 1600.5 is not a whole number (wanted: from 0 N/m)"),
        (with(1, "-1"), "permanent and long-term load: -1 is below zero (wanted: from 0 N/m)"),
        (with(1, "1.600"), "permanent and long-term load: \"1.600\" can be read in two ways: leave the mark out (wanted: from 0 N/m)"),
        (with(1, "1.6 kN/m"), "permanent and long-term load: \"1.6 kN/m\" is not a number (wanted: from 0 N/m)"),
        (with(2, ""), "remaining load: blank (wanted: from 0 N/m)"),
        (with(2, "see statics"), "remaining load: \"see statics\" is not a number (wanted: from 0 N/m)"),
        (with(1, "99999"), "total load q: 100399 is outside 100 to 100000 N/m"),
        (with(2, "98401"), "total load q: 100001 is outside 100 to 100000 N/m"),
        ("B1,99,0,4200,1,12,1000,45,160".to_owned(), "total load q: 99 is outside 100 to 100000 N/m"),
        ("B1,0,0,4200,1,12,1000,45,160".to_owned(), "total load q: 0 is outside 100 to 100000 N/m"),
        (with(2, "99999999999"), "total load q: 100000001599 is outside 100 to 100000 N/m"),
        (with(3, ""), "span: blank (wanted: 500 to 20000 mm)"),
        (with(3, "4.2"), "span: 4.2 is not a whole number (wanted: 500 to 20000 mm)"),
        (with(3, "4200 mm"), "span: \"4200 mm\" is not a number (wanted: 500 to 20000 mm)"),
        (with(3, "499"), "span: 499 is outside 500 to 20000 mm"),
        (with(3, "20001"), "span: 20001 is outside 500 to 20000 mm"),
    ];
    for (beam, reason) in reasons {
        let run = table_of(&[&beam]);
        let line = run.line("B1 ");
        assert!(
            line.ends_with(&format!("  refusal 8, {reason}")),
            "{line} instead of {reason}"
        );
        let tally = "1 row: 0 passed, 0 failed, 1 refused";
        assert_eq!((run.code, run.summary()), (1, tally));
    }
}

#[test]
fn what_is_wrong_with_a_cell() {
    for (beam, reason) in [
        (with(4, ""), "cell 2 grade: blank"),
        (with(4, "4"), "cell 2 grade: 4 is not a known code"),
        (with(5, "61"), "cell 4 moisture: 61 is outside 0 to 60 %"),
        (
            with(5, "12.5"),
            "cell 4 moisture: 12.5 is not a whole number",
        ),
        (
            with(6, "1001"),
            "cell 5 office factor: 1001 is outside 500 to 1000 thousandths",
        ),
        (with(7, "wide"), "cell 6 width b: \"wide\" is not a number"),
        (
            with(7, "301"),
            "cell 6 width b: 301 is outside 20 to 300 mm",
        ),
        (with(8, ""), "cell 7 height h: blank"),
    ] {
        let run = table_of(&[&beam]);
        assert!(
            run.line("B1 ").ends_with(&format!("  {reason}")),
            "{}",
            run.out
        );
    }
    // A column that is missing is a blank cell, and a load's comes first.
    let header = HEADER.replace(",grade", "").replace(",span", "");
    let run = table(format!("{header}\nB1,1600,400,12,1000,45,160\n"));
    assert!(
        run.line("B1 ").contains("  refusal 8, span: blank "),
        "{}",
        run.out
    );
    let run = table_of(&["B1,1600,400,99,4,61.5,1,x,"]);
    assert!(
        run.line("B1 ")
            .contains("  refusal 8, span: 99 is outside "),
        "{}",
        run.out
    );
}

/// Every beam is refused as the add-in has it, and every refusal 8 finds what is to blame.
#[test]
fn the_addin_alone_refuses() {
    const LOADS: [&str; 11] = [
        "", "0", "1", "99", "100", "50000", "100000", "100001", "x", "0.5", "-1",
    ];
    const SPANS: [&str; 7] = ["", "499", "500", "20000", "20001", "4200.5", "span"];
    let mut beams = Vec::new();
    for long_term in LOADS {
        for remaining in LOADS {
            for span in SPANS {
                beams.push(format!("B,{long_term},{remaining},{span},1,12,1000,45,160"));
            }
        }
    }
    let run = table(format!("{HEADER}\n{}\n", beams.join("\n")));
    let lines = run.out.lines().filter(|line| line.starts_with("B "));
    let lines: Vec<&str> = lines.collect();
    assert_eq!(lines.len(), beams.len());
    let mut judged = 0;
    for (line, beam) in lines.iter().zip(&beams) {
        match entry::check_floor_beam(&cells_of(beam)) {
            Ok(_) => {
                judged += 1;
                assert!(!line.contains("refus"), "{beam}: {line}");
            }
            Err(refusal) => {
                assert_eq!(refusal, Refusal { number: 8, cell: 0 }, "{beam}");
                let (_, reason) = line.split_once("  refusal 8, ").expect(beam);
                assert!(reason.contains(": "), "{beam}: {line}");
            }
        }
    }
    // 21 pairs of loads have a total in its range, and two spans are in theirs.
    assert_eq!(judged, 2 * 21);
}

/// The sheet does not know better than the add-in.
#[test]
fn a_refusal_that_nothing_explains_is_a_refusal() {
    let schema = floor_beams::schema();
    let text = BEAM.as_bytes();
    let columns = Columns::in_order_from(text, schema, b',', Basis::Asked);
    let line = Line {
        number: 1,
        text,
        closed_in: None,
    };
    let row = SheetRow::read(&line, &columns);
    for (number, reason) in [
        (8, "refusal 8 of a load, the total load or the span"),
        (1, "refusal 1 of the whole beam"),
    ] {
        assert_eq!(
            load_reasons::reason(Refusal { number, cell: 0 }, &row),
            reason
        );
    }
}

/// The ranges that people are shown are those that the add-in keeps.
#[test]
fn ranges_in_words_are_the_addins() {
    let bounds = |range: &str| -> (f64, f64) {
        let (least, most) = range.split_once(" to ").unwrap();
        (least.parse().unwrap(), most.parse().unwrap())
    };
    let refused = |place: usize, number: f64| {
        let mut cells: HostBeam = cells_of(BEAM);
        cells[1] = Some(0.0);
        cells[place - 1] = Some(number);
        entry::check_floor_beam(&cells).err()
    };
    let schema = floor_beams::schema();
    for (place, range, number) in [
        (1, words::TOTAL_LOAD.range, 8),
        (3, schema.cell(3).words.range, 8),
        (5, schema.cell(5).words.range, 4),
        (6, schema.cell(6).words.range, 4),
        (7, schema.cell(7).words.range, 4),
        (8, schema.cell(8).words.range, 4),
    ] {
        let (least, most) = bounds(range);
        let cell = schema.cell(place).number.unwrap_or(0) as u32;
        let outside = Some(Refusal { number, cell });
        assert_eq!(
            (refused(place, least), refused(place, most)),
            (None, None),
            "{place}"
        );
        assert_eq!(refused(place, most + 1.0), outside);
        assert!(
            least == 0.0 || refused(place, least - 1.0) == outside,
            "{place}"
        );
    }
    assert_eq!(refused(2, 100.0), None);
}
