//! A refused row has the table's reason, and no strengths.
use super::{columns, row_lines, strengths};
use crate::common::{table, HEADER, ROW_A, ROW_B, ROW_E};

/// A row with another text in a column.
fn with(row: &str, column: usize, text: &str) -> String {
    let mut fields: Vec<&str> = row.split(',').collect();
    fields[column] = text;
    fields.join(",")
}

#[test]
fn the_reasons_are_the_tables() {
    let mut rows: Vec<String> = Vec::new();
    for text in [
        "",
        "0",
        "-1",
        "6",
        "x",
        "1.5",
        "1.600",
        "1e400",
        "99999999999",
        "=A1",
    ] {
        for row in [ROW_A, ROW_B, ROW_E] {
            let columns = row.split(',').count();
            rows.extend((1..columns).map(|column| with(row, column, text)));
        }
    }
    rows.push(format!("{ROW_E},5"));
    rows.push("\"open,2,1,3,10,1000,75,300,,20000000,20000".to_owned());
    rows.push("name alone".to_owned());
    let sheet = format!("{HEADER}\n{}\n", rows.join("\n"));
    let (listed, judged) = (strengths(&sheet, &[]), table(&sheet));
    let (lines, verdicts) = (row_lines(&listed), row_lines(&judged));
    assert_eq!((lines.len(), verdicts.len()), (rows.len(), rows.len()));
    let mut refused = 0;
    for ((line, verdict), row) in lines.iter().zip(verdicts).zip(&rows) {
        let columns = columns(line);
        if let Some((_, reason)) = verdict.split_once("  refused        –       –  ") {
            refused += 1;
            assert_eq!(columns[5..], ["–", "–", "–", "–", reason], "{row}");
        } else {
            assert_eq!(columns.len(), 9, "{row}: {line}");
            assert!(line.contains(" + 0."), "{row}: {line}");
        }
    }
    let count = format!(
        "{} rows: {} with strengths, {refused} refused",
        rows.len(),
        rows.len() - refused
    );
    assert_eq!(listed.summary(), count);
    assert!(refused > 400 && refused < rows.len() - 10, "{count}");
}

/// What the add-in is not shown, since it is not clear which cells are meant.
#[test]
fn rows_that_are_not_clear() {
    let sheet = format!("{HEADER}\n{ROW_E},5\n\"A,2,1,3,10,1000,75,300,,20000000,20000\n{ROW_B}\n");
    let run = strengths(sheet, &[]);
    let dashes = "  –                  –                  –                  –  ";
    for (member, reason) in [
        ("E ", "column 24: \"5\" stands below no heading"),
        ("\"A ", "column 1: the quote that begins \"A is not closed"),
    ] {
        let line = run.line(member);
        assert!(line.ends_with(&format!("{dashes}{reason}")), "{line}");
    }
    assert_eq!(run.summary(), "3 rows: 1 with strengths, 2 refused");
    assert_eq!(run.code, 1);
}

/// Where the last dash of a line stands: no check of these rows uses shear.
fn end_of_shear(line: &str) -> Option<usize> {
    let letters: Vec<char> = line.chars().collect();
    letters.iter().rposition(|letter| *letter == '–')
}

/// Whatever was typed keeps to its column.
#[test]
fn cells_of_any_length_keep_the_columns() {
    let digits = "9".repeat(300);
    for text in [
        &digits,
        "99999999",
        "100000000",
        "-99999999999999",
        "\u{1F4A9}",
    ] {
        for column in 2..=5 {
            let sheet = format!("{HEADER}\n{ROW_B}\n{}\n", with(ROW_A, column, text));
            let run = strengths(sheet, &[]);
            assert_eq!(end_of_shear(run.line("A ")), end_of_shear(run.line("B ")));
            assert_eq!(run.summary(), "2 rows: 1 with strengths, 1 refused");
        }
    }
}
