//! Where sag cannot be judged: which of Mn and n is to blame, in words, and what becomes of the beam.
use super::{answer, asking, beam, csv, judged, table};
use crate::floor::{cells_of, BEAM};
use lvl_addin::answer::Refusal;
use lvl_addin::entry;
use lvl_sheet::columns::{Basis, Columns};
use lvl_sheet::lines::Line;
use lvl_sheet::row::SheetRow;
use lvl_sheet::{floor_beams, load_reasons, words};

/// It fails in strength.
const FAILS: &str = "B1,1601,400,4200,1,12,1000,45,160";

#[rustfmt::skip]
const REASONS: [(&str, &str, &str); 20] = [
    ("", "200", "unfactored moment Mn: blank (wanted: 1 to 10000000000 N·mm)"),
    ("1800000", "", "limit n: blank (wanted: 100 to 500)"),
    ("by statics", "200", "unfactored moment Mn: \"by statics\" is not a number (wanted: 1 to 10000000000 N·mm)"),
    ("1.8 kNm", "200", "unfactored moment Mn: \"1.8 kNm\" is not a number (wanted: 1 to 10000000000 N·mm)"),
    ("1800000.5", "200", "unfactored moment Mn: 1800000.5 is not a whole number (wanted: 1 to 10000000000 N·mm)"),
    ("-1800000", "200", "unfactored moment Mn: -1800000 is below zero (wanted: 1 to 10000000000 N·mm)"),
    ("1800.000", "200", "unfactored moment Mn: \"1800.000\" can be read in two ways: leave the mark out (wanted: 1 to 10000000000 N·mm)"),
    ("0", "200", "unfactored moment Mn: 0 is outside 1 to 10000000000 N·mm"),
    ("10000000001", "200", "unfactored moment Mn: 10000000001 is outside 1 to 10000000000 N·mm"),
    ("99999999999", "200", "unfactored moment Mn: 99999999999 is outside 1 to 10000000000 N·mm"),
    ("1800000", "L/200", "limit n: \"L/200\" is not a number (wanted: 100 to 500)"),
    ("1800000", "200.5", "limit n: 200.5 is not a whole number (wanted: 100 to 500)"),
    ("1800000", "99", "limit n: 99 is outside 100 to 500"),
    ("1800000", "501", "limit n: 501 is outside 100 to 500"),
    ("–", "–", "unfactored moment Mn: \"–\" is not a number (wanted: 1 to 10000000000 N·mm); leave both blank where no sag is wanted"),
    ("—", "", "unfactored moment Mn: \"—\" is not a number (wanted: 1 to 10000000000 N·mm); leave both blank where no sag is wanted"),
    ("", "—", "unfactored moment Mn: blank (wanted: 1 to 10000000000 N·mm); leave both blank where no sag is wanted"),
    ("1800000", "––", "limit n: \"––\" is not a number (wanted: 100 to 500); leave both blank where no sag is wanted"),
    ("1800000", "−200", "limit n: \"−200\" is not a number (wanted: 100 to 500)"),
    // Of two that are to blame the first is named.
    ("0", "99", "unfactored moment Mn: 0 is outside 1 to 10000000000 N·mm"),
];

/// A beam that passes in strength has no verdict, since what was asked for could not be judged.
#[test]
fn a_beam_that_passes_in_strength_is_refused() {
    for (moment, n, reason) in REASONS {
        let run = table(&[beam(moment, n)]);
        let line = run.line("B1 ");
        let parts = [
            "  pass    89.3 (7)  ".to_owned(),
            format!("  refused       refused        –  refusal 10, {reason}"),
        ];
        assert!(line.contains(&parts[0]), "{line}");
        assert!(line.ends_with(&parts[1]), "{line} instead of {reason}");
        let tally = "1 row: 0 passed, 0 failed, 1 refused";
        assert_eq!((run.code, run.summary()), (1, tally));
    }
}

/// A dash for nothing is a hyphen too, before which `--csv` puts an apostrophe.
#[test]
fn a_hyphen_is_a_dash() {
    for dash in ["-", "'-", "--", " - "] {
        let run = table(&[beam(dash, dash)]);
        let advice = "; leave both blank where no sag is wanted";
        assert!(run.line("B1 ").ends_with(advice), "{}", run.out);
    }
}

#[test]
fn a_beam_that_fails_in_strength_fails_all_the_same() {
    for (moment, n, reason) in REASONS {
        let run = table(&[asking(FAILS, moment, n)]);
        let line = run.line("B1 ");
        let parts = [
            "  FAIL   111.2 (7)  ".to_owned(),
            format!("  refused       FAIL       111.2  bending, 7.9; sag: refusal 10, {reason}"),
        ];
        assert!(line.contains(&parts[0]), "{line}");
        assert!(line.ends_with(&parts[1]), "{line} instead of {reason}");
        let tally = "1 row: 0 passed, 1 failed, 0 refused";
        assert_eq!((run.code, run.summary()), (1, tally));
    }
}

/// Strength as it is, the refusal of the sag beside it, and no figures of the sag.
#[test]
fn in_the_answer_columns() {
    for (moment, n, reason) in REASONS {
        let quoted = match reason.contains('"') {
            true => format!("\"{}\"", reason.replace('"', "\"\"")),
            false => reason.to_owned(),
        };
        let of_sag = format!("refused,,10,{quoted},,,,,,");
        for (typed, passes) in [(beam(moment, n), true), (asking(FAILS, moment, n), false)] {
            let found = entry::check_floor_beam(&cells_of(&typed)).unwrap();
            assert_eq!(found.verdict.passes, passes);
            let figure = format!("7,{}", found.verdict.utilisation);
            let (own, strength) = match passes {
                true => ("refused,,,10,0".to_owned(), format!("pass,{figure}")),
                false => (format!("fail,{figure},,"), format!("fail,{figure}")),
            };
            let run = csv(std::slice::from_ref(&typed));
            let line = run.out.lines().nth(1).unwrap();
            assert!(line.starts_with(&format!("{typed},{own},")), "{line}");
            let end = format!(",{strength},{of_sag}");
            assert!(line.ends_with(&end), "{line} instead of {end}");
            assert_eq!(run.code, 1);
        }
    }
}

/// A beam that is refused itself is refused for that, and its sag is not asked for.
#[test]
fn a_beam_that_is_refused_shows_no_sag() {
    for (typed, reason) in [
        (
            "B1,,400,4200,1,12,1000,45,160",
            "refusal 8, permanent and long-term load: blank (wanted: from 0 N/m)",
        ),
        (
            "B1,1600,400,499,1,12,1000,45,160",
            "refusal 8, span: 499 is outside 500 to 20000 mm",
        ),
        (
            "B1,1600,400,4200,4,12,1000,45,160",
            "cell 2 grade: 4 is not a known code",
        ),
    ] {
        for (moment, n) in [("1800000", "200"), ("x", "200"), ("1800000", "")] {
            let line = asking(typed, moment, n);
            let run = table(std::slice::from_ref(&line));
            let end = format!("  not judged    refused        –  {reason}");
            assert!(run.line("B1 ").ends_with(&end), "{}", run.out);
            assert!(!run.out.contains("refusal 10"), "{}", run.out);
            let asks_not = asking(typed, "", "").replace("B1", "B2");
            let asks_not = table(&[line.clone(), asks_not]);
            let end = format!("  –             refused        –  {reason}");
            assert!(asks_not.line("B2 ").ends_with(&end), "{}", asks_not.out);
            let out = csv(std::slice::from_ref(&line)).out;
            let written = out.lines().nth(1).unwrap();
            let from = |heading: &str| answer(&out, written, heading);
            assert_ne!(from("refusal"), "10");
            let beside = written.rsplit(',').take(17).collect::<String>();
            assert_eq!(beside, "", "{written}");
        }
    }
}

/// The sheet does not know better than the add-in, and would blame the span too.
#[test]
fn what_refusal_10_says_of_any_beam() {
    let reason = |line: &str, number: u32| {
        let schema = floor_beams::schema();
        let text = line.as_bytes();
        let columns = Columns::in_order_from(text, schema, b',', Basis::Asked);
        let line = Line {
            number: 1,
            text,
            closed_in: None,
        };
        let row = SheetRow::read(&line, &columns);
        load_reasons::reason(Refusal { number, cell: 0 }, &row)
    };
    let nothing_to_blame = beam(1_800_000, 200);
    for (line, number, expected) in [
        (
            nothing_to_blame.as_str(),
            10,
            "refusal 10 of the span, the unfactored moment or the limit",
        ),
        (&nothing_to_blame, 9, "refusal 9 of the whole beam"),
        (
            "B1,1600,400,,1,12,1000,45,160,,",
            10,
            "refusal 10, span: blank (wanted: 500 to 20000 mm)",
        ),
        (
            "B1,1600,400,499,1,12,1000,45,160,,",
            10,
            "refusal 10, span: 499 is outside 500 to 20000 mm",
        ),
    ] {
        assert_eq!(reason(line, number), expected);
    }
}

/// The ranges that people are shown are those that the add-in keeps.
#[test]
fn ranges_in_words_are_the_addins() {
    let bounds = |range: &str| -> (u64, u64) {
        let (least, most) = range.split_once(" to ").unwrap();
        (least.parse().unwrap(), most.parse().unwrap())
    };
    let refusal = |moment: u64, n: u64| {
        let line = beam(moment, n);
        let found = entry::check_floor_beam(&cells_of(&line)).unwrap();
        super::sag_of(&line, &found).unwrap().err()
    };
    let outside = Some(Refusal {
        number: 10,
        cell: 0,
    });
    let schema = floor_beams::schema();
    let [moments, limits] = [9, 10].map(|place| bounds(schema.cell(place).words.range));
    assert_eq!(
        words::SAG.map(|words| bounds(words.range)),
        [moments, limits]
    );
    for moment in [moments.0, moments.1] {
        assert_eq!(refusal(moment, limits.0), None);
        assert_eq!(refusal(moment, limits.1), None);
    }
    for (moment, n) in [
        (moments.0 - 1, limits.0),
        (moments.1 + 1, limits.0),
        (moments.0, limits.0 - 1),
        (moments.0, limits.1 + 1),
    ] {
        assert_eq!(refusal(moment, n), outside, "{moment} {n}");
    }
    assert!(judged(&asking(BEAM, moments.0, limits.1)).passes);
}
