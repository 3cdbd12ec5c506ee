//! Verdicts as the table shows them: the hall roof, the worked rows, percent.
use crate::common::{answers, csv, hall_roof, table, table_of, ROW_A, ROW_B, ROW_E};

/// Members of the hall roof, and what stands in their lines: kind, size, verdict, figures, reason.
#[rustfmt::skip]
const OF_THE_HALL_ROOF: [(&str, [&str; 5]); 11] = [
    ("P1 purlin", ["bending ", "75 × 300", "pass", "74.0", "bending, 7.9"]),
    ("P3 purlin", ["bending ", "75 × 300", "FAIL", "102.3", "bending, 7.9"]),
    ("T1 bottom chord, axis 2", ["tension ", "150 × 350", "pass", "56.3      19", "net tension, 7.1"]),
    ("T2b same, joint", ["tension ", "150 × 350", "FAIL", "–      23", "joint length, 8.20"]),
    ("T1 diagonal D2", ["compression ", "150 × 200", "pass", "90.3", "buckling across b, 7.2"]),
    ("C1 main column", ["compression + bending", "160 × 500", "pass", "80.9", "compression with bending, 7.17"]),
    ("T3 bottom chord with hoist, axis 7",
        ["tension + bending", "150 × 300", "FAIL", "102.7", "tension with bending, 7.16"]),
    ("P8 purlin", ["bending ", "75 × 300", "refused", "–", "cell 9 moment M: blank, but kind 2 needs it"]),
    ("C9 column",
        ["compression + bending", "180 × 600", "refused", "–", "cell 3 regime: 9 stands for К, which belongs to fire"]),
    ("A4 tie", ["tension ", "63 × 120", "refused", "–", "cell 8 axial force N: \"see statics\" is not a number"]),
    ("T5 bottom chord", ["tension ", "150 × 350", "refused", "–", "cell 20 kb: blank, but a joint is begun"]),
];

#[test]
fn the_hall_roof() {
    let run = table(hall_roof());
    assert_eq!(run.code, 1);
    assert_eq!(run.summary(), "63 rows: 43 passed, 13 failed, 7 refused");
    for (member, parts) in OF_THE_HALL_ROOF {
        for part in parts {
            assert!(
                run.line(member).contains(part),
                "{part} in {}",
                run.line(member)
            );
        }
    }
}

#[test]
fn the_hall_roof_shows_every_check_that_fails() {
    let answers = answers(&csv(hall_roof()).out);
    for check in 1..=11 {
        let fails = |answer: &&[String; 6]| answer[0] == "fail" && answer[1] == check.to_string();
        assert!(answers.iter().any(|answer| fails(&answer)), "check {check}");
    }
}

#[test]
fn worked_rows() {
    let f = ROW_E.replace("E,", "F,").replace("840", "671");
    let g = ROW_E.replace("E,", "G,").replace(",12,3,", ",16,3,");
    let run = table_of(&[ROW_A, ROW_B, ROW_E, &f, &g]);
    assert_eq!(
        (run.code, run.summary()),
        (1, "5 rows: 3 passed, 2 failed, 0 refused")
    );
    for (member, end) in [
        ("A ", "pass        69.1       –  bending, 7.9"),
        ("B ", "pass        31.6       –  buckling across b, 7.2"),
        ("E ", "pass        34.3      20  net tension, 7.1"),
        ("F ", "FAIL           –      20  joint length, 8.20"),
        ("G ", "FAIL           –       –  dowel layout, 8.20"),
    ] {
        assert!(run.line(member).ends_with(end), "{}", run.line(member));
    }
    assert_eq!(table_of(&[ROW_A, ROW_B, ROW_E]).code, 0);
}

#[test]
fn percent_is_rounded_away_from_a_pass() {
    let with_moment = |name, moment| format!("{name},2,1,3,10,1000,75,300,,{moment},20000");
    let rows = [
        with_moment("even", "28957500"),
        with_moment("above", "28957501"),
        with_moment("far", "9000000000"),
    ];
    let run = table_of(&rows.each_ref().map(String::as_str));
    assert!(run.line("even").contains("pass       100.0 "));
    assert!(run.line("above").contains("FAIL       100.1 "));
    assert!(run.line("far").contains("FAIL     > 999.9 "));
}
