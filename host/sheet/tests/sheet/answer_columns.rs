//! The answers in columns beside the input.
use crate::common::{
    answers, cells_of, csv, hall_roof, to_last_cell, Scratch, HEADER, ROW_A, ROW_E,
};
use lvl_addin::answer::{Refusal, Verdict};
use lvl_addin::entry;

#[test]
fn answer_columns_are_those_of_the_addin() {
    let sheet = hall_roof();
    let run = csv(&sheet);
    assert_eq!(
        (run.code, run.err.as_str()),
        (1, "63 rows: 43 passed, 13 failed, 7 refused\n")
    );
    assert_eq!(run.out.lines().count(), sheet.lines().count());
    for (written, typed) in run.out.lines().zip(sheet.lines()) {
        assert!(written.starts_with(&format!("{typed},")), "{written}");
    }
    for (answer, row) in answers(&run.out).iter().zip(sheet.lines().skip(1)) {
        assert_eq!(*answer, expected(row), "{row}");
    }
}

/// The answer columns of a row, by the add-in itself.
fn expected(row: &str) -> [String; 6] {
    let texts = match entry::check(&cells_of(row)) {
        Ok(Verdict {
            passes,
            check,
            utilisation,
            count,
        }) => {
            let word = if passes { "pass" } else { "fail" };
            format!("{word},{check},{utilisation},{count},,")
        }
        Err(Refusal { number, cell }) => format!("refused,,,,{number},{cell}"),
    };
    texts
        .split(',')
        .map(str::to_owned)
        .collect::<Vec<_>>()
        .try_into()
        .unwrap()
}

/// A sheet, what `--csv` makes of it, and that it makes the same of that.
fn read_again(content: &str, options: &[&str]) -> String {
    let csv = |content: &str| {
        let options = [options, &["--csv"]].concat();
        Scratch::new(content.as_bytes()).run(&options)
    };
    let once = csv(content);
    let again = csv(&once.out);
    assert_eq!(once.out, again.out);
    assert_eq!(once.code, again.code, "{}", again.err);
    assert_eq!(once.err.lines().last(), again.err.lines().last());
    once.out
}

#[test]
fn answer_columns_read_again_give_the_same() {
    for content in [hall_roof().as_str(), ROW_A, &ROW_A[2..], ROW_E] {
        read_again(content, &[]);
        read_again(content, &["--by-position"]);
    }
    let header = HEADER.replace(',', ";");
    let a = "2;1;3;10,0;1 000;75;300;;2E+07;20000";
    let c = to_last_cell("2;1;3;10;1000;75;300;;20000000;20000", ';');
    let odd = format!("\u{feff}{header}\n\"A; \"\"left\"\"\";{a}\n;;\nB;2;x\nC;{c};odd\nbare");
    let out = read_again(&odd, &[]);
    assert!(out.starts_with(&format!("\u{feff}{header};verdict;check;")));
    let [a, b] = [a, "2;x"].map(|given| to_last_cell(given, ';'));
    for part in [
        format!("\n\"A; \"\"left\"\"\";{a};pass;7;690668;0;;\n;;\n"),
        format!("\nB;{b};refused;;;;1;2\n"),
        format!("\nC;{c};refused;;;;extra column;;odd\n"),
    ] {
        assert!(out.contains(&part), "{part}");
    }
}

/// Answers that are there already are written where they are, and all else is kept.
#[test]
fn answer_columns_keep_every_column_in_its_place() {
    let sheet = "\u{feff}sep=;\nHall; axis 1\n\n\
        Check;h;remark;b;verdict;moisture;kind;count;Refused cell;regime;grade;factor;M;Q;;name;refusal;\
        utilisation in millionths\n\
        old;300;\"first; of two\";75;old;10;2;;;3;1;1000;20000000;20000;;A\n\
        ;300;;75;;10;2;;;3;1;1000;20000000;20000;!;B;1;old\n\
        ;300;;75;;10;7;;;3;1;1000;20000000;20000;;C;;;!\n";
    let out = read_again(sheet, &["--skip", "Remark"]);
    let lines: Vec<&str> = out.lines().collect();
    assert_eq!(
        lines,
        [
            "\u{feff}sep=;",
            "Hall; axis 1",
            "",
            sheet.lines().nth(3).unwrap(),
            "7;300;\"first; of two\";75;pass;10;2;0;;3;1;1000;20000000;20000;;A;;690668",
            ";300;;75;refused;10;2;;;3;1;1000;20000000;20000;!;B;extra column;",
            ";300;;75;refused;10;7;;;3;1;1000;20000000;20000;;C;extra column;;!",
        ]
    );
}

/// An office's own count or check would be written over.
#[test]
fn an_answers_heading_alone_stops_the_sheet() {
    let sheet = format!("{HEADER},Count\n{ROW_E},4\n");
    for options in [&[][..], &["--csv"], &["--csv", "--skip", "count"]] {
        let run = Scratch::new(sheet.as_bytes()).run(options);
        assert_eq!((run.code, run.out.as_str()), (2, ""));
        let message = "column 24, \"Count\": the heading of an answer, without those of the others: rename the column";
        assert!(run.err.contains(message), "{}", run.err);
        let skip = "--skip \"count\": an answer cannot be passed over: rename the column";
        assert_eq!(run.err.contains(skip), options.len() == 3);
    }
}

/// A line of quotes alone is blank here; other programs would take the rows below for its text.
#[test]
fn blank_lines_of_quotes_are_written_whole() {
    let out = csv(format!("{HEADER}\n{ROW_A}\n\"\n{ROW_E}\n\"\n")).out;
    let lines: Vec<&str> = out.lines().collect();
    assert_eq!(
        (lines.len(), lines[2], lines[4]),
        (5, "\"\"\"\"", "\"\"\"\"")
    );
    assert_eq!(csv(&out).out, out);
}
