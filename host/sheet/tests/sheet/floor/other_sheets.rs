//! Members with `--floor`, floor beams without it, and what else does not go with it.
use super::{example, floor, stopped, BEAM, HEADER};
use crate::common::{self, hall_roof, run, Scratch, ROW_A, ROW_B, ROW_E};

#[test]
fn floor_beams_without_floor_are_not_judged() {
    let advice = "These are rather the headings of another sheet: a sheet of floor beams is judged with --floor\n";
    for options in [&[][..], &["--csv"], &["--pack"], &["--strengths"]] {
        let run = Scratch::new(example().as_bytes()).run(options);
        assert_eq!((run.code, run.out.as_str()), (2, ""));
        assert!(run
            .err
            .contains("line 1, the header: its headings are not clear"));
        assert!(run.err.ends_with(advice), "{}", run.err);
    }
    let written = floor(example(), &["--csv"]).out;
    assert!(common::table(written).err.ends_with(advice));
    // Too little of the header is known for one of members.
    let few = "Балка,Пролёт,Постоянная и длительная нагрузка,Остальная нагрузка,x,y,z,u,v";
    let run = common::table(format!("{few}\n{BEAM}\n"));
    assert_eq!((run.code, run.out.as_str()), (2, ""));
    let message =
        " is the header of another sheet: a sheet of floor beams is judged with --floor\n";
    assert!(
        run.err.contains("line 1, \"Балка,") && run.err.ends_with(message),
        "{}",
        run.err
    );
}

#[test]
fn members_with_floor_are_not_judged() {
    let advice = "These are rather the headings of another sheet: a sheet of members is judged without --floor\n";
    for options in [&[][..], &["--csv"], &["--strengths"]] {
        assert!(stopped(&hall_roof(), options).ends_with(advice));
    }
    let few = "Table 16 row,kc,ka,kb\n1600,400,4200,1,12,1000,45,160\n";
    let message = " is the header of another sheet: a sheet of members is judged without --floor\n";
    assert!(stopped(few, &[]).ends_with(message));
}

/// Where the order decides there is no header to tell by: no member has a floor beam's cells, and no floor beam a member's.
#[test]
fn what_is_listed_otherwise_has_no_verdict_in_order() {
    let unheaded = |sheet: &str| sheet.lines().skip(1).collect::<Vec<_>>().join("\n");
    let members = [
        hall_roof(),
        unheaded(&hall_roof()),
        [ROW_A, ROW_B, ROW_E].join("\n"),
    ];
    for (sheet, options) in members.iter().zip([&["--by-position"][..], &[], &[]]) {
        let run = floor(sheet, options);
        assert!(
            run.summary().contains(" 0 passed, 0 failed, "),
            "{}",
            run.out
        );
    }
    let beams = [example(), unheaded(&example()), BEAM.to_owned()];
    for (sheet, options) in beams.iter().zip([&["--by-position"][..], &[], &[]]) {
        let run = Scratch::new(sheet.as_bytes()).run(options);
        assert!(
            run.summary().contains(" 0 passed, 0 failed, "),
            "{}",
            run.out
        );
    }
}

/// A heading that no sheet knows is answered with those that this one does.
#[test]
fn the_headings_that_are_known_are_floor_beams_own() {
    let message = stopped(&format!("{HEADER},Raum\n{BEAM},x\n"), &[]);
    for part in [
        "column 10, \"Raum\": not a known heading\n",
        "\n    beam  beam, floor beam, балка",
        "\n       –  L, span, ",
        "\n       7  h, height, ",
        "total load q in N/m, regime, ",
    ] {
        assert!(message.contains(part), "{part} in {message}");
    }
    assert!(!message.contains("axial force"), "{message}");
    let twice = stopped(&format!("{HEADER},балка\n{BEAM},x\n"), &[]);
    let problem =
        "column 10, \"балка\": the beam's name is headed twice, by column 1, \"beam\", too";
    assert!(twice.contains(problem), "{twice}");
}

#[test]
fn floor_beams_are_not_packed() {
    for arguments in [
        ["--floor", "--pack", "a.csv"],
        ["--pack", "--floor", "a.csv"],
    ] {
        let run = run(&arguments);
        assert_eq!((run.code, run.out.as_str()), (2, ""));
        let message = "sheet: --pack packs rows, and a floor beam is no row: it has loads and a span in place of cells\nusage: ";
        assert!(run.err.starts_with(message), "{}", run.err);
    }
}

/// Reading is one for both: encodings, quotes, titles, line ends, limits.
#[test]
fn what_stops_a_sheet_of_members_stops_one_of_beams() {
    let open = format!("remark,{HEADER}\n\"see dwg,{BEAM}\nx 5\",{BEAM}\n");
    let message = "line 2: a quote is open that line 3 may close, and members would be lost";
    assert!(stopped(&open, &["--skip", "remark"]).contains(message));
    // A header within the quote, of which members know nothing.
    let few = "remark,beam,permanent and long-term load,remaining load,span";
    let header = format!("{few}\n\"see dwg,B1,1600,400,4200\n{few}\nx 5\",B2,1600,400,4200\n");
    let message = "line 2: a quote is open that line 4 may close, and members would be lost";
    assert!(stopped(&header, &["--skip", "remark"]).contains(message));
    let above = stopped(&format!("{BEAM}\n{HEADER}\n{BEAM}\n"), &[]);
    assert!(
        above.contains(" looks like a member, but stands above the header in line 2"),
        "{above}"
    );
    let another = HEADER.replace("b,h", "h,b");
    let below = stopped(&format!("{HEADER}\n{BEAM}\n{another}\n{BEAM}\n"), &[]);
    assert!(below.contains("line 3 is another header"), "{below}");
    let spoilt = stopped(&format!("{HEADER},5\n{BEAM}\n"), &[]);
    assert!(
        spoilt.contains(" looks like a header, but has a number"),
        "{spoilt}"
    );
    assert!(stopped("PK\x03\x04", &[]).ends_with("this is a workbook; save the sheet as CSV\n"));
    assert!(stopped(HEADER, &[]).ends_with("there are no rows\n"));
    let utf16 = format!("\u{feff}sep=;\r\n{HEADER}\r\n{BEAM}\r\n").replace(',', ";");
    let utf16: Vec<u8> = utf16.encode_utf16().flat_map(u16::to_le_bytes).collect();
    assert!(floor(utf16, &[]).line("B1 ").ends_with(super::JUDGED));
}

/// By their order the loads could be exchanged: a header of which nothing is known is no row.
#[test]
fn a_header_that_is_not_known_stops() {
    let beam = "Б8;400;1601;4200;1;12;1000;45;160";
    for header in [
        "Балка;Врем.;Пост.;Длина;Кл.;Вл.;К;Шир.;Выс.",
        "Ref;Live;Dead;Length;Gr;MC;phi;bw;D",
    ] {
        let sheet = format!("{header}\n{beam}\n");
        let run = floor(sheet.as_str(), &[]);
        assert_eq!((run.code, run.out.as_str()), (2, ""), "{header}");
        assert!(run.err.contains("seems to be a header"), "{}", run.err);
        assert!(floor(sheet.as_str(), &["--by-position"])
            .line("Б8 ")
            .contains("pass"));
    }
    // In CP866, in which spreadsheets write "CSV (MS-DOS)".
    let cp866 = b"\xa1\xa0\xab\xaa\xa0;\xae\xe1\xe2.;\xaf\xae\xe1\xe2.;\xaf\xe0.\nB8;400;1601;4200;1;12;1000;45;160\n";
    assert_eq!(floor(cp866.as_slice(), &[]).code, 2);
}

/// What a word processor makes of a hyphen is one.
#[test]
fn hyphens_of_any_kind() {
    for hyphen in ['\u{2010}', '\u{2011}', '–'] {
        let header = super::HEADER.replace('-', &hyphen.to_string());
        let run = floor(format!("{header}\n{}\n", super::BEAM), &[]);
        assert!(run.line("B1 ").ends_with(super::JUDGED), "{}", run.err);
    }
}
