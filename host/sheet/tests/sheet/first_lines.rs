//! What stands above the first row: a hint at the separator, titles, the header, or no header at all.
use crate::common::{by_position, csv, table, HEADER, ROW_A, ROW_B, ROW_E};

#[test]
fn a_first_member_with_rubbish_is_a_row() {
    for first in [
        "A,two,one,three,ten,full,75 mm,300 mm,,see statics,",
        "B",
        "B,,,,,",
        "N,x",
        "member",
        "Bauteil,Art,Breite",
        "x,y,z",
        "\u{1F4A9}",
    ] {
        let run = table(format!("{first}\n{ROW_A}\n{ROW_E}\n"));
        assert_eq!(run.code, 1, "{first}");
        assert_eq!(
            run.summary(),
            "3 rows: 2 passed, 0 failed, 1 refused",
            "{first}"
        );
        assert_eq!(
            run.err,
            "sheet: note: there is no header: line 1 is the first row, and cells are taken in the order of --help\n"
        );
        let asked = by_position(format!("{first}\n{ROW_A}\n{ROW_E}\n"));
        assert_eq!((asked.out, asked.err.as_str()), (run.out, ""), "{first}");
    }
    let with_number = table(format!("name,kind,{ROW_A}\n{HEADER}\n{ROW_A}\n"));
    assert_eq!(with_number.code, 2, "{}", with_number.out);
}

#[test]
fn title_lines_are_passed_over_with_a_note() {
    let titles =
        "Hall roof; axes 1, 2, 5\n\n\"Drawing 12\";;;;\n;Rev.;3\nName;Hall;Type;Roof\nBreite\x07;\n";
    let sheet = [HEADER, ROW_A, ROW_B, ""].join("\n").replace(',', ";");
    let run = table(format!("{titles}{sheet}"));
    assert_eq!(run.summary(), "2 rows: 2 passed, 0 failed, 0 refused");
    let end = "stands above the header in line 7 and is passed over";
    for (note, line) in run.err.lines().zip([
        "line 1, \"Hall roof; axes 1, 2, 5\"",
        "line 3, \"\"Drawing 12\";;;;\"",
        "line 4, \";Rev.;3\"",
        "line 5, \"Name;Hall;Type;Roof\"",
        "line 6, \"Breite\u{fffd};\"",
    ]) {
        assert_eq!(note, format!("sheet: note: {line}, {end}"));
    }
    assert_eq!(run.err.lines().count(), 5);
    let long = table(format!("{}\n{sheet}", "long ".repeat(1000)));
    assert!(
        long.err.len() < 200 && long.err.contains('…'),
        "{}",
        long.err
    );
}

#[test]
fn the_first_of_two_equal_headers_is_the_header() {
    let run = table([HEADER, ROW_A, HEADER, ROW_B].join("\n"));
    assert_eq!(run.summary(), "3 rows: 2 passed, 0 failed, 1 refused");
}

#[test]
fn a_header_is_looked_for_in_thirty_lines() {
    let at = |line: usize| table("title\n".repeat(line - 1) + HEADER + "\n" + ROW_A + "\n");
    assert_eq!(at(30).summary(), "1 row: 1 passed, 0 failed, 0 refused");
    let further_down = at(31);
    assert_eq!(further_down.code, 2);
    assert!(further_down
        .err
        .contains("line 31 is another header: one table a sheet"));
}

#[test]
fn a_member_above_the_header_stops_the_sheet() {
    for above in [ROW_A, "A,2,1,3,10,1000"] {
        let run = table(format!("Hall\n{above}\n{HEADER}\n{ROW_B}\n"));
        assert_eq!((run.code, run.out.as_str()), (2, ""));
        let end = "looks like a member, but stands above the header in line 3\n";
        assert!(
            run.err.contains("line 2, \"") && run.err.ends_with(end),
            "{}",
            run.err
        );
    }
    // Separated otherwise than the header, with or without a header of its own.
    let other = ROW_A.replace(',', ";");
    let few = "kind;grade;b;h;M;Q";
    for above in [other.clone(), format!("{few}\n{other}")] {
        let run = table(format!("{above}\n{HEADER}\n{ROW_B}\n"));
        assert_eq!((run.code, run.out.as_str()), (2, ""), "{}", run.err);
        assert!(run.err.contains(" looks like a member, "), "{}", run.err);
    }
}

#[test]
fn a_hint_sets_the_separator() {
    let plain = table([HEADER, ROW_A].join("\n")).out;
    for (hint, separator) in [
        ("sep=;", ";"),
        ("SEP=;", ";"),
        ("sep=,", ","),
        ("sep=\t", "\t"),
        ("\"sep=;\"", ";"),
        ("sep=;;;;;", ";"),
        ("sep=; ", ";"),
        ("\u{feff}sep=;", ";"),
    ] {
        let sheet = [HEADER, ROW_A].join("\n").replace(',', separator);
        let run = table(format!("{hint}\n{sheet}\n"));
        assert_eq!(run.out, plain, "{hint}");
        assert!(
            run.err.starts_with("sheet: note: line 1, \""),
            "{}",
            run.err
        );
        assert!(
            run.err
                .ends_with(" sets the separator and is passed over\n"),
            "{}",
            run.err
        );
    }
    // The row alone would be taken to be separated by commas.
    let name = "A, axes 1, 2, 3, 4, 5, 6, 7, 8, 9, 10, 11";
    let row = format!("{name};2;1;3;10;1000;75;300;;20000000;20000");
    assert_eq!(table(&row).code, 1);
    assert_eq!(
        table(format!("sep=;\n{row}")).summary(),
        "1 row: 1 passed, 0 failed, 0 refused"
    );
    let other = [HEADER, ROW_A].join("\n").replace(',', ";");
    assert_eq!(
        table(format!("sep=,\n{other}")).summary(),
        "2 rows: 0 passed, 0 failed, 2 refused"
    );
    for hint in ["sep=|", "sep=", "sep=x", "sep=;b"] {
        let run = table(format!("{hint}\n{HEADER}\n{ROW_A}\n"));
        assert_eq!((run.code, run.out.as_str()), (2, ""));
        assert!(
            run.err
                .contains("line 1: sep= has to set a comma, a semicolon or a tab"),
            "{}",
            run.err
        );
    }
    assert!(table("sep=;\n\n").err.ends_with("there are no rows\n"));
}

#[test]
fn a_header_with_commas_in_its_units_is_separated_as_it_reads_best() {
    let sheet =
        "kind;grade;regime;moisture, %;factor, ‰;b, мм;h, мм;M, Н·мм;Q, Н;N, Н;Lh, мм;Lb, мм\n\
        2;1;3;10;1000;75;300;20000000;20000\n";
    assert!(table(sheet).line("line 2 ").contains("69.1"));
    let few = "b, mm;h, mm;Q, N\n75;300;20000\n";
    assert!(
        table(few).line("line 2 ").ends_with("cell 1 kind: blank"),
        "{}",
        table(few).out
    );
}

/// As many headings are known by one separator as by another: the one that the line has most of counts.
#[test]
fn a_header_that_reads_two_ways_is_separated_by_what_it_has_most_of() {
    let message = table("b;N,h;N\n1;2;3\n").err;
    assert!(
        message.contains("column 3, \"N\": axial force N is headed twice"),
        "{message}"
    );
    let message = table("b;N,h;N,,\n1,2\n").err;
    assert!(
        message.contains("column 1, \"b;N\": width b has to be in mm"),
        "{message}"
    );
}

#[test]
fn without_a_header_an_empty_first_field_is_the_kind() {
    let run = table(format!("{}\n{ROW_A}\n", &ROW_A[1..]));
    assert!(
        run.line("line 1 ").ends_with("cell 1 kind: blank"),
        "{}",
        run.out
    );
    let reason = "cell 1 kind: \"A\" is not a number";
    assert!(run.line("line 2 ").ends_with(reason), "{}", run.out);
}

#[test]
fn a_last_line_that_may_be_cut_off_is_said_to_be() {
    let note = "sheet: note: line 3, the last, has no line end and stops in column 11 of 23: \
        if the file was cut off, so was its last number\n";
    let sheet = format!("{HEADER}\n{ROW_E}\n{ROW_A}");
    assert_eq!(table(&sheet).err, note);
    assert_eq!(table(format!("{sheet}\n")).err, "");
    assert_eq!(table(format!("{sheet}\r")).err, "");
    assert_eq!(table(format!("{HEADER}\n{ROW_A}\n{ROW_E}")).err, "");
    assert_eq!(by_position(&sheet).err, "");
}

#[test]
fn the_lines_above_are_written_again() {
    let above = "sep=;\nHall; axis 1\n;;\n";
    let sheet = [HEADER, ROW_A].join("\n").replace(',', ";");
    let run = csv(format!("{above}{sheet}\n"));
    assert!(
        run.out.starts_with(&format!("{above}member;kind;")),
        "{}",
        run.out
    );
    assert_eq!(csv(&run.out).out, run.out);
    assert_eq!(csv(&run.out).err, run.err);
    let unheaded = csv(format!("sep=;\n\n{}", ROW_A.replace(',', ";")));
    assert!(
        unheaded.out.starts_with("sep=;\n\nmember;kind;grade;"),
        "{}",
        unheaded.out
    );
    assert_eq!(csv(&unheaded.out).out, unheaded.out);
}
