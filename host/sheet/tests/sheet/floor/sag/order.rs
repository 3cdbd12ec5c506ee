//! A sheet whose columns are taken in their order: both that ask for sag, as the last two, or neither.
use super::{beam, table};
use crate::common::Scratch;
use crate::floor::{self, floor, BEAM, HEADER, JUDGED};

const NOTE: &str = "sheet: note: there is no header: line 1 is the first row, and cells are taken in the order of --help\n";

#[test]
fn both_stand_after_the_cells_of_the_beam() {
    let headed = table(&[beam(1_800_000, 200)]);
    let run = floor(beam(1_800_000, 200), &[]);
    assert_eq!(
        (run.out.as_str(), run.err.as_str()),
        (headed.out.as_str(), NOTE)
    );
    let unnamed = floor(&beam(1_800_000, 200)[3..], &[]);
    assert!(
        unnamed
            .line("line 1 ")
            .contains("  1.80  200  pass    97.6  "),
        "{}",
        unnamed.out
    );
    for header in [&format!("{HEADER},Mn,n"), "Load 1,b,h,grade", HEADER] {
        let beam = match header.starts_with("Load") {
            true => beam(1_800_000, 200)[3..].to_owned(),
            false => beam(1_800_000, 200),
        };
        let run = floor(format!("{header}\n{beam}\n"), &["--by-position"]);
        assert!(
            run.out.contains("  1.80  200  pass    97.6  "),
            "{}",
            run.out
        );
    }
    let example = floor::example_with_sag();
    let plain = floor::table(&example).out;
    assert_eq!(floor(&example, &["--by-position"]).out, plain);
    let (_, unheaded) = example.split_once('\n').unwrap();
    assert_eq!(floor::table(unheaded).out, plain);
}

/// Whichever beam is the first to ask, and whatever of both it fills.
#[test]
fn any_beam_may_ask() {
    for asks in [beam(1_800_000, 200), beam("", 200), beam(1_800_000, "")] {
        let content = format!("{BEAM}\n{BEAM},,\n{asks}\n{BEAM}\n");
        let run = floor(content, &[]);
        let end = "  –  –             pass        89.3  bending, 7.9";
        let others = run.out.lines().filter(|line| line.ends_with(end)).count();
        assert_eq!(others, 3, "{}", run.out);
        assert!(run.out.contains("  Sag, %  "), "{}", run.out);
    }
    // In a sheet with both columns one field may end the line.
    let run = floor(format!("{}\n{BEAM},1800000\n", beam(1_800_000, 200)), &[]);
    let reasons = run.out.matches("refusal 10, limit n: blank").count();
    assert_eq!(
        (run.summary(), reasons),
        ("2 rows: 1 passed, 0 failed, 1 refused", 1)
    );
    let further = floor(
        format!("{},5\n{}\n", beam(1_800_000, 200), beam(1_800_000, 200)),
        &[],
    );
    let reason = "column 12: \"5\" stands past the last cell, limit n";
    assert!(further.line("B1 ").ends_with(reason), "{}", further.out);
}

/// A moment without a further field is one without a limit, as with it.
#[test]
fn a_lone_number_asks() {
    for options in [&[][..], &["--by-position"], &["--csv"], &["--strengths"]] {
        for others in ["", BEAM, &beam(1_800_000, "")] {
            for lone in ["1800000", "1 800 000", "1.5", "1800.000"] {
                let content = |end: &str| format!("{BEAM},{lone}{end}\n{others}\n{BEAM},7\n");
                let with_field = floor(content(","), options);
                let run = floor(content(""), options);
                assert_eq!((run.out, run.err), (with_field.out, with_field.err));
            }
        }
    }
    let run = floor(format!("{BEAM},1800000\n"), &[]);
    let end = "1.80    –  refused       refused        –  refusal 10, limit n: blank (wanted: 100 to 500)";
    assert!(run.line("B1 ").ends_with(end), "{}", run.out);
    assert!(run.out.contains("  pass    89.3 (7)  "), "{}", run.out);
}

/// Remarks of an office are no moments, and neither are numbers among them.
#[test]
fn a_lone_number_among_remarks_does_not_ask() {
    for options in [&[][..], &["--by-position"], &["--strengths"]] {
        for other in [",see drawing 5", ",5,6,7", ",,,5", ",as B1"] {
            for lines in [[",1800000", other], [other, ",1800000"]] {
                let rows = lines.map(|end| format!("{BEAM}{end}\n"));
                let run = floor(rows.concat(), options);
                let reason = " stands past the last cell, 7 height h\n";
                assert_eq!(run.out.matches(reason).count(), 2, "{}", run.out);
            }
        }
    }
}

/// Three columns after the cells were an office's own before there was sag, and still are, and so is one of remarks.
#[test]
fn other_columns_after_the_cells_are_refused_as_before() {
    for options in [&[][..], &["--by-position"]] {
        for end in [",as B1", ",,,5", ",5,6,7", ",,6,7"] {
            let run = floor(format!("{BEAM}{end}\n"), options);
            let reason = " stands past the last cell, 7 height h";
            assert!(run.line("B1 ").ends_with(reason), "{}", run.out);
            let strengths = floor(
                format!("{BEAM}{end}\n"),
                &[options, &["--strengths"]].concat(),
            );
            assert!(strengths.line("B1 ").ends_with(reason), "{}", strengths.out);
        }
    }
    for blank in ["", ",", ",,", ",,,"] {
        let run = floor(format!("{BEAM}{blank}\n"), &[]);
        assert!(run.line("B1 ").ends_with(JUDGED), "{}", run.out);
        assert!(!run.out.contains("Sag"), "{}", run.out);
        let written = floor(format!("{BEAM}{blank}\n"), &["--csv"]).out;
        let end = format!("\n{BEAM},pass,7,892337,,,2000,В,4410000,4200{blank}\n");
        assert!(written.ends_with(&end), "{written}");
    }
}

/// In their order, the answers of an earlier run say by their place whether there are columns of sag.
#[test]
fn below_the_answers_of_an_earlier_run() {
    let by_position = |content: &str| floor(content, &["--by-position", "--csv"]).out;
    let without = by_position(&format!("{HEADER}\n{BEAM}\n"));
    assert_eq!(by_position(&without), without);
    let with = by_position(&format!("{HEADER},Mn,n\n{}\n", beam(1_800_000, 200)));
    assert!(with.contains(",1800000,200,pass,sag,975892,"), "{with}");
    assert_eq!(by_position(&with), with);
    let table = Scratch::new(with.as_bytes()).run(&["--floor", "--by-position"]);
    assert!(
        table.line("B1 ").contains("  pass    97.6  "),
        "{}",
        table.out
    );
    // Where the beam asks no more, its columns stand where they are.
    let asks_no_more = with.replace(",1800000,200,", ",,,");
    let again = by_position(&asks_no_more);
    let row = format!("\n{BEAM},,,pass,7,892337,,,2000,В,4410000,4200,pass,7,892337,,,,,,,,,,\n");
    assert!(again.ends_with(&row), "{again}");
    assert_eq!(by_position(&again), again);
}
