//! The table's columns for sag: what is typed as it is shown, and every text below its heading.
use super::{beam, table};
use crate::common::Scratch;
use crate::floor::{self, example_with_sag, floor};

/// Mn in kN·m, rounded up to two decimals as M is; what cannot be shown is a question mark.
#[test]
fn moment_and_limit_as_they_were_typed() {
    for (moment, n, shown) in [
        ("1", "100", "      0.01  100  "),
        ("1800000", "200", "      1.80  200  "),
        ("1800001", "200", "      1.81  200  "),
        ("1 800 000", "2E2", "      1.80  200  "),
        ("10000000000", "500", "  10000.00  500  "),
        ("10000000001", "501", "         ?  501  "),
        ("0", "0", "      0.00    0  "),
        ("1.5", "1000", "         ?    ?  "),
        ("by statics", "L/200", "         ?    ?  "),
        ("", "200", "         –  200  "),
        ("1800000", "", "      1.80    –  "),
    ] {
        let run = table(&[beam(moment, n)]);
        let line = run.line("B1 ");
        let shown = format!("  pass    89.3 (7){shown}");
        assert!(line.contains(&shown), "{shown} in {line}");
    }
}

#[test]
fn every_text_stands_below_its_heading() {
    let out = floor::table(example_with_sag()).out;
    let lines: Vec<Vec<char>> = out.lines().map(|line| line.chars().collect()).collect();
    let heading: String = lines[0].iter().collect();
    let rows = &lines[2..40];
    for (column, words) in [
        ("Strength, %", &["pass ", "FAIL ", "–    "][..]),
        (
            "Sag, %",
            &["pass ", "FAIL ", "refused ", "not judged ", "–    "],
        ),
        ("Verdict", &["pass ", "FAIL ", "refused "]),
        (
            "Governing",
            &["bending", "shear", "sag, ", "refusal ", "cell "],
        ),
    ] {
        let at = heading.find(column).unwrap();
        let at = heading[..at].chars().count();
        for row in rows {
            let text: String = row[at..].iter().collect();
            let before: String = row[at - 2..at].iter().collect();
            let is_text = words.iter().any(|word| text.starts_with(word));
            assert!(
                is_text && before == "  ",
                "{column}: {}",
                String::from_iter(row)
            );
        }
    }
}

/// The columns of sag are no member's.
#[test]
fn without_floor_the_sheet_is_not_judged() {
    let run = Scratch::new(example_with_sag().as_bytes()).run(&[]);
    assert_eq!((run.code, run.out.as_str()), (2, ""));
    let advice = "These are rather the headings of another sheet: a sheet of floor beams is judged with --floor\n";
    assert!(run.err.ends_with(advice), "{}", run.err);
    let in_order = Scratch::new(example_with_sag().as_bytes()).run(&["--by-position"]);
    assert!(
        in_order.summary().contains(" 0 passed, 0 failed, "),
        "{}",
        in_order.out
    );
    let written = floor(example_with_sag(), &["--csv"]).out;
    let run = Scratch::new(written.as_bytes()).run(&[]);
    assert!(run.err.ends_with(advice), "{}", run.err);
}
