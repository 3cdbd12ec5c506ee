//! Quoted fields: doubled quotes, line breaks, and quotes that are never closed.
use crate::common::{csv, table, table_of, Run, Scratch, HEADER, ROW_A, ROW_B, ROW_E};

/// Row A under another name, as it is typed.
fn named(name: &str) -> String {
    format!("{name},{}", &ROW_A[2..])
}

#[test]
fn quotes() {
    let run = table_of(&[
        &named("\"A \"\"left\"\", axis 1\""),
        &named("\"B never closed"),
        &named("C 3\" wide"),
        &ROW_A.replace("75", "\"75\""),
    ]);
    assert!(run.line("A \"left\", axis 1").contains("69.1"));
    let reason = "column 1: the quote that begins \"B never closed is not closed";
    assert!(
        run.line("\"B never closed").ends_with(reason),
        "{}",
        run.out
    );
    assert!(run.line("C 3\" wide").contains("69.1"));
    assert_eq!(run.summary(), "4 rows: 3 passed, 0 failed, 1 refused");
}

#[test]
fn a_quoted_field_may_hold_line_breaks() {
    for end in ["\n", "\r\n", "\r"] {
        let name = format!("\"Purlin,{end}{end}axes \"\"1\"\",{end}2\"");
        let sheet = [HEADER, &named(&name), "x", ROW_B].join(end);
        let run = table(&sheet);
        assert_eq!(run.summary(), "3 rows: 2 passed, 0 failed, 1 refused");
        let shown = "Purlin,EEaxes \"1\",E2".replace('E', &" ".repeat(end.len()));
        assert!(run.line(&shown).contains("69.1"), "{}", run.out);
        let written = csv(&sheet).out;
        assert!(written.contains(&name), "{written}");
        assert_eq!(csv(&written).out, written);
        // Lines are counted as they stand in the file.
        let header = HEADER.replace("member", &format!("\"member{end}\""));
        let unnamed = [&header, "", &ROW_A[1..]].join(end);
        assert!(table(unnamed).line("line 4 ").contains("69.1"));
    }
}

#[test]
fn headings_may_hold_line_breaks() {
    let header = HEADER
        .replace(",b,h,", ",\"width\nb, mm\",\"height\r\nh\n[mm]\",")
        .replace("moisture", "\"moisture,\n%\"");
    let run = table(format!("Hall\n{header}\n{ROW_A}\n"));
    assert!(run.line("A ").contains("69.1"), "{}", run.err);
    assert!(run.err.contains("above the header in line 2"));
    for separator in [";", "\t"] {
        let sheet = format!("{}\n{ROW_A}\n", HEADER.replace(",b,", ",\"b\n(mm)\","));
        assert!(table(sheet.replace(',', separator))
            .line("A ")
            .contains("69.1"));
    }
}

/// Whatever follows: quotes that belong to no field, that open another, or that would close one where a number has to be.
#[test]
fn a_quote_that_is_never_closed_spoils_its_own_line_alone() {
    let opening = named("\"B never closed");
    let last = format!("{ROW_B},,,,,,,,,\"remark");
    for (spoilt, next) in [
        (opening.as_str(), ROW_A.to_owned()),
        (&opening, named("\"A, axes 1–2\"")),
        (&opening, named("A 3\" wide")),
        (&opening, named("\"A \"\"left\"\"\"")),
        (&opening, ROW_A.replace("75", "\"75\"")),
        (&last, named("A 3\"")),
        (&last, format!("{ROW_A}\"")),
        (&last, named("\"A\"")),
        ("\"x", ROW_A.to_owned()),
        ("x,\"", named("A 3\"")),
        ("x,\"\"\"", named("A\"\"")),
    ] {
        let sheet = [HEADER, ROW_E, spoilt, &next, ROW_E].join("\n");
        let run = table(&sheet);
        let refused = if next.ends_with('"') { 2 } else { 1 };
        assert_eq!(
            run.summary(),
            format!(
                "4 rows: {} passed, 0 failed, {refused} refused",
                4 - refused
            ),
            "{sheet}"
        );
        let written = csv(&sheet).out;
        assert_eq!(csv(&written).out, written, "{sheet}");
    }
    let to_the_end = [HEADER, ROW_A, &opening].join("\n");
    assert_eq!(
        table(&to_the_end).summary(),
        "2 rows: 1 passed, 0 failed, 1 refused"
    );
}

/// A field that is closed as it should be is one field even where it looks odd.
#[test]
fn line_breaks_are_held_where_no_member_is() {
    let remark = "\"rev. 2,\n1, 2,\n= see statics; 5\"";
    let header = format!("remark,{HEADER}");
    let sheet = format!("{header}\n{remark},{ROW_A}\n,{ROW_E}\n");
    let run = Scratch::new(sheet.as_bytes()).run(&["--skip", "remark"]);
    assert_eq!(run.summary(), "2 rows: 2 passed, 0 failed, 0 refused");
}

/// A sheet of beams with columns of the office's own on the right, and what is passed over of them.
const OWN_COLUMNS: [&str; 11] = [
    "remark", "s1", "s2", "s3", "s4", "s5", "s6", "s7", "s8", "s9", "s10",
];

fn with_own_columns(rows: &[&str]) -> Run {
    let header = format!(
        "member,kind,grade,regime,moisture,factor,b,h,M,Q,{}",
        OWN_COLUMNS.join(",")
    );
    let skip = OWN_COLUMNS.map(|heading| ["--skip", heading]).concat();
    let sheet = format!("{header}\n{}\n", rows.join("\n"));
    Scratch::new(sheet.as_bytes()).run(&skip)
}

/// The inch mark below seems to close the quote, and members would be lost: in columns that are passed over, or within the quote.
#[test]
fn a_quote_that_may_swallow_members_stops_the_sheet() {
    let fails = "2,1,4,12,1000,75,300,29600000,21200";
    let passes = "2,1,4,12,1000,75,300,21400000,15800";
    for (open, close) in [
        (format!("P1,{passes},\"see dwg"), format!("P3 5\",{fails}")),
        (format!("\"P1,{passes}"), format!("P3 5\",{fails}")),
        (format!("P1,{passes},\"see dwg"), format!("P3,{fails},5\"")),
    ] {
        let run = with_own_columns(&[&open, &close]);
        assert_eq!((run.code, run.out.as_str()), (2, ""), "{}", run.err);
        let message = "line 2: a quote is open that line 3 may close, and members would be lost";
        assert!(run.err.contains(message), "{}", run.err);
    }
    // Behind columns that hold no cells.
    let sheet = ",,,,,member,kind,grade,regime,moisture,factor,b,h,M,Q\n\
        ,,,,,\"B3,2,1,4,12,1000,75,300,99000000,15800\n,,,,,B4 5\",2,1,4,12,1000,75,300,1000000,100\n";
    let message = "line 2: a quote is open that line 3 may close, and members would be lost";
    assert!(table(sheet).err.contains(message), "{}", table(sheet).out);
    // A remark that is closed, with figures of the office's own in it and after it.
    let run = with_own_columns(&[
        &format!("P1,{passes},\"axes 1, 2, 3,\nrev. 2\",5,6"),
        &format!("P3,{fails}"),
    ]);
    assert_eq!(run.summary(), "2 rows: 1 passed, 1 failed, 0 refused");
}

/// An open quote may have been meant to hold the cells of a joint: the row is refused, and what `--csv` writes of it too.
#[test]
fn a_row_with_an_open_quote_is_refused() {
    let header = HEADER.replace(",a,d,", ",remark,a,d,");
    let joint = "75,24,3,1700,750,1200,2200,25,3100";
    for remark in ["\"not closed", "\"A \"left\" right"] {
        let row = format!("T1,1,1,4,12,800,150,350,455000,,,6000,6000,4,{remark},{joint}");
        let skip = ["--skip", "remark", "--csv"];
        let run = Scratch::new(format!("{header}\n{row}\n").as_bytes()).run(&skip);
        assert!(run.out.contains(",refused,,,,open quote,"), "{}", run.out);
        let again = Scratch::new(run.out.as_bytes()).run(&skip);
        assert_eq!(again.out, run.out);
        let table = Scratch::new(run.out.as_bytes()).run(&skip[..2]);
        let reason = "column 15: the quote that begins \"";
        assert!(table.line("T1 ").contains(reason), "{}", table.out);
    }
}

/// Two load cases in one cell, a line break after a number, a quote that is not closed or closes too early: no number.
#[test]
fn a_number_with_a_stray_quote_is_refused() {
    for m in [
        "\"12100000\n29600000\"",
        "\"12100000\n\"",
        "\"12100000",
        "\"12\"100000",
        "12100000\"",
        "\"12100000\"x",
    ] {
        let row = format!("P3,2,1,4,12,1000,75,300,,{m}");
        let run = table_of(&[&row, ROW_A]);
        let reasons = ["cell 9 moment M: \"", "column 10: the quote that begins \""];
        let is_told = reasons.map(|reason| run.line("P3 ").contains(reason));
        assert!(is_told.contains(&true), "{m}: {}", run.out);
        assert!(run.line("A ").contains("69.1"), "{m}: {}", run.out);
        assert!(run.summary().contains(" 1 passed, 0 failed, "), "{m}");
    }
    for (typed, in_its_place) in [
        (",75,", ",\"75\" ,"),
        ("A,", "\"A\nleft\" ,"),
        ("A,", "\"A\" left,"),
    ] {
        let run = table_of(&[&ROW_A.replacen(typed, in_its_place, 1)]);
        assert_eq!(
            run.summary(),
            "1 row: 1 passed, 0 failed, 0 refused",
            "{}",
            run.out
        );
    }
}

/// As each line was typed, so many rows.
#[test]
fn lines_that_are_not_one_field_stay_apart() {
    for (lines, rows) in [
        // Closed before a letter.
        ("\"A\n\"B\",x", 2),
        ("\"A\n\"B", 2),
        // In the column of a cell, and past the last.
        ("A,\"x\ny\"", 2),
        (",,,,,,,,,,,,,,,,,,,,,,,,\"x\ny\"", 2),
        // Four numbers in a line, and two headings.
        ("\"A,1,2,3,4\nx\",y", 1),
        ("\"A\n1,2,3,4\nx\",y", 1),
        ("\"A\nwidth b,height h\nx\",y", 1),
    ] {
        let sheet = format!("{HEADER}\n{lines}\n");
        let run = Scratch::new(sheet.as_bytes()).run(&["--csv"]);
        let refused = format!("{rows} row");
        assert!(run.err.starts_with(&refused), "{lines}: {}", run.err);
    }
    // Five numbers, and three headings.
    for lines in [
        "\"A,1,2,3,4,5\nx\",y",
        "\"A\n,1,2,3,4,5\nx\",y",
        "\"A\nb,h,N\nx\",y",
    ] {
        let run = table(format!("{HEADER}\n{lines}\n"));
        assert!(
            run.err.contains("line 2: a quote is open that line "),
            "{lines}: {}",
            run.err
        );
    }
}

#[test]
fn a_title_does_not_swallow_the_header() {
    let flat = "P1 5\",2,1,4,12,1000,75,300,,21400000,15800";
    let exchanged = HEADER.replace("b,h", "h,b");
    let run = table(format!("\"Hall roof\n{exchanged}\n{flat}\n"));
    assert!(run.line("P1 5\"").contains("300 × 75 "), "{}", run.out);
    assert!(run.line("P1 5\"").contains("FAIL"), "{}", run.out);
    for header in [
        format!("\"{exchanged}"),
        exchanged.replace("kind", "\"kind"),
    ] {
        let run = table(format!("{header}\n{flat}\n"));
        assert!(run.line("P1 5\"").contains("FAIL"), "{header}: {}", run.out);
    }
    let quoted = table(format!("\"{exchanged}\"\n{flat}\n"));
    assert_eq!((quoted.code, quoted.out.as_str()), (2, ""));
    let message = "looks like a header, but has a number or a quote that is not closed";
    assert!(quoted.err.contains(message), "{}", quoted.err);
    // Programs that read what --csv wrote see a title, and no more.
    let written = csv(format!("\"Hall\n{HEADER}\n{ROW_A}\n")).out;
    assert!(
        written.starts_with("\"\"\"Hall\"\nmember,kind"),
        "{written}"
    );
}
