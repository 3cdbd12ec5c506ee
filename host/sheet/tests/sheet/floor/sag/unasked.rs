//! A sheet in which no beam asks for sag is answered as if there were no such thing; one in which some do shows dashes for the others.
use super::{beam, csv, sheet, table};
use crate::common::Run;
use crate::floor::{example, example_with_sag, floor, BEAM, HEADER};

/// A sheet's lines with two blank cells at the end of each below the header.
fn with_blank_columns(content: &str, headings: &str) -> String {
    let mut lines = content.lines();
    let header = format!("{},{headings}\n", lines.next().unwrap());
    let below = lines.map(|line| match line {
        "" => "\n".to_owned(),
        line if line == HEADER => header.clone(),
        line => format!("{line},,\n"),
    });
    let below: String = below.collect();
    header + &below
}

fn left(run: Run) -> (i32, String, String) {
    (run.code, run.out, run.err)
}

#[test]
fn blank_columns_change_nothing() {
    let repeated = format!("{HEADER}\n{BEAM}\n\n{HEADER}\n{BEAM}\n");
    let with_units = format!("{HEADER}\n,N/m,N/m,mm,,%,‰,mm,mm\n{BEAM}\n");
    for content in [example(), repeated, with_units] {
        for headings in ["Mn,n", "Нормативный момент Mn (Н·мм),предел прогиба n"]
        {
            let blank = with_blank_columns(&content, headings);
            for options in [&[][..], &["--strengths"]] {
                let plain = left(floor(&content, options));
                assert_eq!(left(floor(&blank, options)), plain);
            }
        }
    }
}

/// The header of a further page fills both columns, and a line of units one: neither is a beam that asks.
#[test]
fn headers_and_units_do_not_ask() {
    for line in [
        format!("{HEADER},Mn,n"),
        ",N/m,N/m,mm,,%,‰,mm,mm,N·mm,–".to_owned(),
    ] {
        let run = floor(format!("{HEADER},Mn,n\n{line}\n{BEAM},,\n"), &[]);
        assert_eq!(run.summary(), "2 rows: 1 passed, 0 failed, 1 refused");
        assert!(!run.out.contains("Sag, %"), "{}", run.out);
        let written = floor(format!("{HEADER},Mn,n\n{line}\n{BEAM},,\n"), &["--csv"]).out;
        assert!(!written.contains("sag"), "{written}");
    }
}

/// The answers are the same, behind two blank columns.
#[test]
fn blank_columns_add_no_answers() {
    let plain = floor(example(), &["--csv"]);
    let blank = floor(with_blank_columns(&example(), "Mn,n"), &["--csv"]);
    assert_eq!((blank.code, &blank.err), (plain.code, &plain.err));
    let pairs = example();
    let pairs = pairs.lines().zip(plain.out.lines().zip(blank.out.lines()));
    for (place, (typed, (plain, blank))) in pairs.enumerate() {
        let answers = plain.strip_prefix(typed).unwrap();
        let columns = if place == 0 { ",Mn,n" } else { ",," };
        assert_eq!(blank, format!("{typed}{columns}{answers}"));
    }
}

/// What the others show of their strength is what they show in a sheet without sag.
#[test]
fn beams_that_do_not_ask_show_a_dash() {
    let run = table(&[
        beam(1_800_000, 200),
        format!("{BEAM},,").replace("B1", "B2"),
    ]);
    let line = run.line("B2 ");
    let shown = "  pass    89.3 (7)         –    –  –             pass        89.3  bending, 7.9";
    assert!(line.ends_with(shown), "{line}");
    let out = csv(&[beam(1_800_000, 200), format!("{BEAM},,")]).out;
    let last = out.lines().nth(2).unwrap();
    let answers = "pass,7,892337,,,2000,В,4410000,4200,pass,7,892337,,,,,,,,,,";
    assert_eq!(last, format!("{BEAM},,,{answers}"));
    let with_sag = floor(example_with_sag(), &[]).out;
    let without = floor(example(), &[]).out;
    let beams = example_with_sag();
    let lines = with_sag.lines().skip(2).zip(without.lines().skip(2));
    for (beam, (with_sag, without)) in beams.lines().skip(1).zip(lines) {
        if !beam.ends_with(",,") {
            continue;
        }
        let verdict = without.rfind("  pass  ").or(without.rfind("  FAIL  "));
        let verdict = verdict.or(without.rfind("  refused  ")).unwrap();
        assert!(with_sag.starts_with(&without[..verdict]), "{with_sag}");
        assert!(with_sag.ends_with(&without[verdict..]), "{with_sag}");
        assert!(with_sag.contains("  –    –  –  "), "{with_sag}");
    }
}

/// Strengths are the beam's own, whether its sag passes, fails or is refused.
#[test]
fn strengths_take_the_columns_without_complaint() {
    let plain = left(floor(example(), &["--strengths"]));
    assert_eq!(left(floor(example_with_sag(), &["--strengths"])), plain);
    for (moment, n) in [("9000000", "200"), ("x", "200"), ("", "200")] {
        let run = floor(sheet(&[beam(moment, n)]), &["--strengths"]);
        assert_eq!(
            (run.code, run.summary()),
            (0, "1 row: 1 with strengths, 0 refused")
        );
    }
    let run = floor(sheet(&[beam(1_800_000, 200)]), &["--pack"]);
    assert_eq!((run.code, run.out.as_str()), (2, ""));
    assert!(run.err.contains("a floor beam is no row"), "{}", run.err);
}
