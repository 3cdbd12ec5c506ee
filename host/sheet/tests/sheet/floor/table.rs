//! Verdicts on floor beams as the table shows them: the example, the line of 80 percent, rounding, the order of columns.
use super::{example, floor, table, table_of, BEAM, HEADER, JUDGED};

/// Beams of the example, and what stands in their lines: load and regime, moment and shear, verdict, reason.
#[rustfmt::skip]
const OF_THE_EXAMPLE: [(&str, [&str; 4]); 10] = [
    ("B1 bedroom 1, beams at 600 mm ", [" 1930  В ", "    3.67     3.77  ", "pass        47.6  ", "bending, 7.9"]),
    ("B7 study", [" 2000  В ", "    4.41     4.20  ", "pass        89.3  ", "bending, 7.9"]),
    ("B8 study", [" 2001  Б ", "    4.42     4.21  ", "FAIL       111.2  ", "bending, 7.9"]),
    ("B19 main beam", [" 23200  В ", "  150.34    83.52  ", "FAIL       108.7  ", "bending, 7.9"]),
    ("B20 lintel", [" 22000  В ", "   24.75    33.00  ", "pass        62.8  ", "shear, 7.10"]),
    ("B21 lintel", [" 72000  Б ", "    7.29    32.40  ", "FAIL       124.3  ", "shear, 7.10"]),
    ("B25 guest room", ["    –  –  ", "       –        –  ", "refused        –  ",
        "refusal 8, permanent and long-term load: blank (wanted: from 0 N/m)"]),
    ("B29 pool", [" 102000  –  ", "       –        –  ", "refused        –  ",
        "refusal 8, total load q: 102000 is outside 100 to 100000 N/m"]),
    ("B31 cellar ceiling", [" 2880  –  ", "       –        –  ", "refused        –  ",
        "cell 2 grade: 4 is not a known code"]),
    ("B32 gallery", [" 9100  –  ", "       –        –  ", "refused        –  ",
        "cell 6 width b: 320 is outside 20 to 300 mm"]),
];

#[test]
fn the_example() {
    let run = table(example());
    assert_eq!((run.code, run.err.as_str()), (1, ""));
    assert_eq!(run.summary(), "38 rows: 23 passed, 5 failed, 10 refused");
    let heading =
        "  Span, mm  b × h, mm     q, N/m  Regime  M, kN·m    Q, kN  Verdict  Util. %  Governing check, clause of SP 64";
    assert!(run.line("Beam ").ends_with(heading), "{}", run.out);
    let remark = "\nStrength alone, for design loads: sag and lateral stability are not checked.\n";
    assert!(run.out.contains(remark), "{}", run.out);
    let geometry = "      3900    45 × 200      1930  В ";
    assert!(run.line("B1 bedroom").contains(geometry), "{}", run.out);
    for (beam, parts) in OF_THE_EXAMPLE {
        let line = run.line(beam);
        for part in &parts[..3] {
            assert!(line.contains(part), "{part} in {line}");
        }
        assert!(line.ends_with(parts[3]), "{line}");
    }
}

/// Both regimes and both checks pass and fail in it.
#[test]
fn the_example_shows_every_verdict() {
    let out = table(example()).out;
    for regime in ["  Б (2)  ", "  В (3)  "] {
        for verdict in ["  pass  ", "  FAIL  "] {
            let is_shown = |line: &str| line.contains(regime) && line.contains(verdict);
            assert!(out.lines().any(is_shown), "{regime}{verdict}");
        }
    }
    for check in ["  bending, 7.9", "  shear, 7.10"] {
        for verdict in ["  pass  ", "  FAIL  "] {
            let is_shown = |line: &str| line.ends_with(check) && line.contains(verdict);
            assert!(out.lines().any(is_shown), "{check}{verdict}");
        }
    }
}

#[test]
fn exactly_80_percent_is_regime_v() {
    for (long_term, remaining, regime) in [
        (1600, 400, "В"),
        (1601, 400, "Б"),
        (1600, 399, "Б"),
        (1599, 400, "В"),
        (80_000, 20_000, "В"),
        (80_001, 19_999, "Б"),
        (2000, 0, "Б"),
        (0, 2000, "В"),
    ] {
        let beam = format!("B1,{long_term},{remaining},900,1,12,1000,75,360");
        let run = table_of(&[&beam]);
        let total = long_term + remaining;
        assert!(
            run.line("B1 ").contains(&format!(" {total}  {regime} (")),
            "{}",
            run.out
        );
    }
}

/// What is shown is never less than what was checked.
#[test]
fn moment_and_shear_are_rounded_up_to_two_decimals() {
    for (load, span, shown) in [
        (2000, 4200, "     4.41     4.20  "),
        (2001, 4200, "     4.42     4.21  "),
        (1930, 3900, "     3.67     3.77  "),
        (100, 500, "     0.01     0.03  "),
        (100_000, 20_000, "  5000.00  1000.00  "),
    ] {
        let run = table_of(&[&format!("B1,0,{load},{span},1,12,1000,300,2500")]);
        assert!(run.line("B1 ").contains(shown), "{}", run.out);
    }
}

#[test]
fn headings_decide_in_any_order() {
    assert!(table_of(&[BEAM]).line("B1 ").ends_with(JUDGED));
    let turned = |line: &str| line.rsplit(',').collect::<Vec<_>>().join(",");
    let sheet = format!("{}\n{}\n", turned(HEADER), turned(BEAM));
    assert_eq!(table(sheet).out, table_of(&[BEAM]).out);
    // The loads exchanged: most of it is of short duration then.
    let exchanged =
        "beam,remaining load,permanent and long-term load,span,grade,moisture,factor,b,h";
    let run = table(format!("{exchanged}\nB1,1601,400,4200,1,12,1000,45,160\n"));
    assert!(run.line("B1 ").contains(" 2001  В (3)  "), "{}", run.out);
    let russian =
        "Пролёт, мм;h, мм;Кратковременная (остальная) нагрузка, Н/м;Балка;Влажность, %;b, мм;\
        Постоянная и длительная нагрузка, Н/м;Коэффициент, ‰;Класс прочности\n\
        4 200;160;400,0;B1;12;45;1,6E+03;1 000;1\n";
    assert_eq!(table(russian).out, table_of(&[BEAM]).out);
}

#[test]
fn without_a_header_the_order_decides() {
    let note = "sheet: note: there is no header: line 1 is the first row, and cells are taken in the order of --help\n";
    let run = table(BEAM);
    assert!(run.line("B1 ").ends_with(JUDGED), "{}", run.out);
    assert_eq!(run.err, note);
    assert!(table(&BEAM[3..]).line("line 1 ").ends_with(JUDGED));
    let further = table(format!("{BEAM},as B2\n"));
    let reason = "column 10: \"as B2\" stands past the last cell, 7 height h";
    assert!(further.line("B1 ").ends_with(reason), "{}", further.out);
}

#[test]
fn by_position_passes_headings_by() {
    let example = example();
    assert_eq!(floor(&example, &["--by-position"]).out, table(&example).out);
    for first in [
        "Load 1",
        "Нагрузка, постоянная",
        "permanent and long-term load",
    ] {
        let sheet = format!("{first},b,h,grade,moisture\n{}\n", &BEAM[3..]);
        let run = floor(sheet, &["--by-position"]);
        assert!(run.line("line 2 ").ends_with(JUDGED), "{}", run.out);
    }
}

#[test]
fn columns_of_the_office_are_passed_over() {
    let sheet = format!("room,{HEADER}\nattic,{BEAM}\n");
    let run = floor(&sheet, &["--skip", "Room"]);
    assert_eq!(run.out, table_of(&[BEAM]).out);
    assert!(super::stopped(&sheet, &[]).contains("column 1, \"room\": not a known heading"));
}
