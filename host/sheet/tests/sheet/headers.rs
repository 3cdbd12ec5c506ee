//! Columns by their headings: any order, unknown and doubled ones, other units, those passed over, cells by position.
use crate::common::{by_position, csv, hall_roof, table, Scratch, HEADER, ROW_A, ROW_B, ROW_E};

/// A table with its columns in another order, the first of them last.
fn turned(content: &str) -> String {
    let width = content.lines().next().unwrap().split(',').count();
    let turned = content.lines().map(|line| {
        let mut fields: Vec<&str> = line.split(',').collect();
        fields.resize(width, "");
        fields.reverse();
        fields.join(",")
    });
    turned.collect::<Vec<_>>().join("\n")
}

fn stopped(content: &str, options: &[&str]) -> String {
    let run = Scratch::new(content.as_bytes()).run(options);
    assert_eq!((run.code, run.out.as_str()), (2, ""), "{content}");
    run.err
}

#[test]
fn exchanged_columns_give_the_verdict_of_their_headings() {
    let exchanged = HEADER.replace("b,h", "h,b");
    let beam = |header: &str| format!("{header}\nA,2,1,3,10,1000,300,75,,20000000,20000\n");
    for (header, parts) in [
        (HEADER, ["300 × 75  ", "FAIL       276.3 "]),
        (&exchanged, ["75 × 300 ", "pass        69.1 "]),
    ] {
        let run = table(beam(header));
        for part in parts {
            assert!(run.line("A ").contains(part), "{part} in {}", run.out);
        }
    }
    let in_order = by_position(beam(&exchanged));
    assert_eq!(in_order.out, table(beam(HEADER)).out);
    assert_eq!(
        in_order.err,
        "sheet: note: column 7, \"h\": taken for width b, as the order has it\n"
    );
}

#[test]
fn any_order_gives_the_same() {
    let sheet = [HEADER, ROW_A, ROW_B, ROW_E].join("\n");
    assert_eq!(table(turned(&sheet)).out, table(&sheet).out);
    let russian = "Влажность, %;Марка;М, Н·мм;Режим;Класс прочности;Высота h, мм;Ширина b, мм;Q (Н);Вид;Коэффициент ‰\n\
        10;A;20000000;3;1;300;75;20000;2;1000\n";
    assert_eq!(
        table(russian).out,
        table(format!("{HEADER}\n{ROW_A}\n")).out
    );
}

#[test]
fn a_heading_that_is_not_known_stops_the_sheet() {
    let content = format!("{}\n{ROW_A}\n", HEADER.replace(",b,h,", ",Breite,h,"));
    let message = stopped(&content, &[]);
    for part in [
        "line 1, the header: ",
        "column 7, \"Breite\": not a known heading",
        "--skip HEADING",
        "\n       6  b, width, ширина",
        "\n      22  km",
        "verdict, check",
    ] {
        assert!(message.contains(part), "{part} in {message}");
    }
    let two = content.replace("Breite,h,", "Breite,hight,");
    assert!(stopped(&two, &["--csv"]).contains("column 8, \"hight\": not a known heading"));
    assert!(stopped(&two, &[]).contains("Breite"));
    assert_eq!(
        by_position(&two).out,
        table(format!("{HEADER}\n{ROW_A}\n")).out
    );
}

#[test]
fn a_heading_that_stands_twice_stops_the_sheet() {
    for (first, second) in [
        ("b", "b"),
        ("b", "width b mm"),
        ("B", "Ширина"),
        ("member", "имя"),
    ] {
        let content = format!("kind,grade,{first},h,{second}\n2,1,75,300,75\n");
        let message = stopped(&content, &[]);
        assert!(
            message.contains(&format!("column 5, \"{second}\": ")),
            "{message}"
        );
        assert!(
            message.contains(&format!("headed twice, by column 3, \"{first}\", too")),
            "{message}"
        );
        assert!(message.contains("\n      22  km"), "{message}");
    }
}

#[test]
fn a_known_name_with_another_unit_stops_the_sheet() {
    for (heading, message) in [
        ("N kN", "axial force N has to be in N\n"),
        ("\"M, kN·m\"", "moment M has to be in N·mm\n"),
        ("b cm", "width b has to be in mm\n"),
        ("Q (кН)", "shear force Q has to be in N\n"),
        ("grade mm", "grade has no unit\n"),
    ] {
        let message = format!("\": {message}");
        let content = format!("member,kind,{heading}\nA,2,20\n");
        assert!(stopped(&content, &[]).contains(&message), "{heading}");
        // Also where no other heading is known.
        let content = format!("{heading},Lh m\n20,3\n");
        assert!(stopped(&content, &[]).contains(&message), "{heading}");
    }
}

#[test]
fn a_line_of_units_below_the_header_is_held_against_the_cells() {
    let header = "member,kind,grade,regime,moisture,factor,b,h,M,Q";
    let with_units =
        |units: &str| format!("{header}\n{units}\nA,2,1,3,10,1000,75,300,20000000,20000\n");
    for (units, message) in [
        (
            ",,,,%,‰,мм,мм,кН·м,кН",
            "line 2, column 9, \"кН·м\": moment M has to be in N·mm\n",
        ),
        (
            ",,,,,,mm,cm,,",
            "line 2, column 8, \"cm\": height h has to be in mm\n",
        ),
    ] {
        let message_given = stopped(&with_units(units), &[]);
        assert!(message_given.ends_with(message), "{message_given}");
    }
    for rubbish in [
        ",,,,%,‰,мм,мм,Н·мм,Н",
        "B,–,-,,–,–,–,–,–,–",
        "A,2,1,3,10,1000,75,300,kN,20000",
    ] {
        let run = table(with_units(rubbish));
        assert_eq!(
            run.summary(),
            "2 rows: 1 passed, 0 failed, 1 refused",
            "{rubbish}"
        );
    }
}

#[test]
fn units_above_the_header_are_held_against_the_cells() {
    let header = "member;kind;grade;regime;moisture;factor;b;h;N;M;Q;Lh;Lb;Table 16 row";
    let row = "T2;4;1;4;12;820;150;400;455;44;43;3050;1500;1";
    for (above, message) in [
        (
            "Member;;;;;;Section, mm;;Forces, kN;;;;;",
            "line 1, column 9, \"Forces, kN\": forces have to be in N, moments in N·mm\n",
        ),
        (
            "Усилия в кН (расчётные);;",
            "line 1, column 1, \"Усилия в кН (расчётные)\": forces have to be in N, moments in N·mm\n",
        ),
        (
            ";;;;;;;;усилия, тыс. Н;;;;;",
            "line 1, column 9, \"усилия, тыс. Н\": forces have to be in N, moments in N·mm\n",
        ),
        (
            ";;;;;;;;;;;Lengths, cm;;",
            "line 1, column 12, \"Lengths, cm\": effective length Lh has to be in mm\n",
        ),
        (
            ";Hall (cm);;",
            "line 1, column 2, \"Hall (cm)\": effective length Lh has to be in mm; where it is, say so in its heading\n",
        ),
        (
            ";;;;;;mm;mm;Н;кНм;кН;мм;мм;",
            "line 1, column 10, \"кНм\": forces have to be in N, moments in N·mm\n",
        ),
    ] {
        let message_given = stopped(&format!("{above}\n{header}\n{row}\n"), &[]);
        assert!(message_given.ends_with(message), "{message_given}");
    }
    for above in [
        "Hall, span 24 m",
        ";Hall, span 24 m;",
        ";;;;;;Section, mm;;Forces, N;;;;;",
        ";;;;;;Section b x h;;Усилия N и M;;;Effective length across h;;",
        ";;;;;;Dimensions b, h;;Forces, N / N·mm;;;Длины, мм;;",
        ";;;;;;;;Усилия (Н, Н·мм);;;;;",
        ";;;;;;;;Forces N, M;;;;;",
        "Шифр;2024-15;;Лист;1;Листов;5",
        "Прогоны по осям 1, 2, 3, 4, 5, 6",
        "Снеговая нагрузка 1,8 кПа, ветер 0,3 кН/м",
        ";;;;%;‰;мм;мм;Н;Н·мм;Н;мм;мм;–",
    ] {
        let run = table(format!("{above}\n{header}\n{row}\n"));
        assert_eq!(run.code, 0, "{above}: {}", run.err);
        assert!(run.err.contains("is passed over"), "{}", run.err);
    }
}

#[test]
fn units_beside_numbers_and_further_down_are_held_against_the_cells() {
    let sheet =
        |units: &str| format!("{HEADER}\n1,2,3,4,5,6,7,8,9,10,11\n{ROW_A}\n{units}\n{ROW_A}\n");
    for units in [
        ",,,,%,0.001,mm,mm,kN,kNm,kN",
        "units,1,1,1,%,‰,mm,mm,kN",
        ",,,,,,мм,см",
        ",,,,,,mm,mm,\"max, kN\",\"max, kN·m\"",
        ",,,,,,mm,mm,тыс. Н",
        ",,,,,,,,kip",
        "forces in kN",
    ] {
        let message = stopped(&sheet(units), &[]);
        assert!(message.contains("line 4, column "), "{message}");
        assert!(message.contains(" to be in "), "{message}");
    }
    for row in [
        "x,2,1,3,10,1000,75,300,kN,20000000,20000",
        "x,2,1,3,10,1000,75,300,t,m,20000",
        "y,mm,2",
    ] {
        assert_eq!(
            Scratch::new(sheet(row).as_bytes()).run(&[]).code,
            1,
            "{row}"
        );
    }
}

#[test]
fn a_header_with_a_number_in_it_stops_the_sheet() {
    let header = HEADER.replace("Table 16 row", "16").replace("b,h", "h,b");
    let content = format!("title\n{header}\n{ROW_A}\n");
    let message = stopped(&content, &[]);
    assert!(message.contains("line 2, \"member,kind,"), "{message}");
    assert!(
        message.ends_with(" looks like a header, but has a number or a quote that is not closed\n")
    );
    assert_eq!(
        by_position(&content).summary(),
        "3 rows: 1 passed, 0 failed, 2 refused"
    );
    // Three headings that are known are enough, and two are not.
    assert!(stopped("h,b,M,5\n", &[]).contains("looks like a header"));
    assert_eq!(table("h,b,5\n").code, 1);
    // The same further down.
    let further_down = format!("{HEADER}\n{ROW_A}\n2,kind,grade,h,b\n{ROW_A}\n");
    assert!(stopped(&further_down, &[]).contains("line 3 is another header"));
    let quoted = format!(
        "{HEADER}\n{ROW_A}\n\"{}\"\n{ROW_A}\n",
        HEADER.replace("b,h", "h,b")
    );
    assert!(stopped(&quoted, &[]).contains("line 3 is another header"));
    // A member behind a quote of the same header again.
    let open = format!(
        "{HEADER},remark\n{ROW_A}\n{HEADER},\"remark\nB 5\",{}\n",
        &ROW_A[2..]
    );
    assert!(stopped(&open, &["--skip", "remark"]).contains("line 3: a quote is open"));
}

#[test]
fn names_with_two_meanings_name_nothing() {
    for (heading, in_place_of) in [("row", "Table 16 row"), ("length", "joint length")] {
        let content = format!("{}\n{ROW_A}\n", HEADER.replace(in_place_of, heading));
        let message = format!("\"{heading}\": not a known heading");
        assert!(stopped(&content, &[]).contains(&message), "{heading}");
    }
    let small = table(format!("{}\n{ROW_A}\n", HEADER.to_lowercase()));
    assert!(small.line("A ").contains("69.1"));
    assert_eq!(
        small.err.lines().take(3).collect::<Vec<_>>(),
        [
            "sheet: note: column 9, \"n\": taken for axial force N",
            "sheet: note: column 10, \"m\": taken for moment M",
            "sheet: note: column 11, \"q\": taken for shear force Q",
        ]
    );
    assert_eq!(small.err.lines().count(), 3);
}

#[test]
fn a_heading_may_be_long() {
    let sheet = "расчётная длина поперёк h;расчётная длина поперёк b\n3000;2000\n";
    assert!(table(sheet).line("line 2 ").ends_with("cell 1 kind: blank"));
    assert_eq!(table(sheet).err, "");
}

#[test]
fn many_unknown_headings_are_counted() {
    let header: String = (0..20_000).map(|number| format!("x{number},")).collect();
    let message = stopped(&format!("member,kind,{header}\nA,2\n"), &[]);
    assert!(message.contains("\n  column 32, \"x29\": not a known heading\n  and 19970 more\n"));
}

#[test]
fn a_header_may_be_long_and_a_longer_line_is_none() {
    let headed = |length: usize| {
        let remark = "x".repeat(length - HEADER.len() - 1);
        let sheet = format!("{HEADER},{remark}\n{ROW_A}\n");
        Scratch::new(sheet.as_bytes()).run(&[])
    };
    assert!(headed(1 << 20).err.contains("not a known heading"));
    assert!(headed((1 << 20) + 1).err.contains("there is no header"));
}

#[test]
fn columns_of_the_office_are_passed_over() {
    let content = format!(
        "Remarks,{HEADER},drawing  No.\n\"5\",{},D-1\n,{ROW_E},7\n",
        to_width(ROW_A)
    );
    let plain = table(format!("{HEADER}\n{ROW_A}\n{ROW_E}\n"));
    let skip = ["--skip", "REMARKS ", "--skip", "Drawing no."];
    assert_eq!(Scratch::new(content.as_bytes()).run(&skip).out, plain.out);
    let message = stopped(&content, &skip[..2]);
    assert!(message.contains("column 25, \"drawing  No.\": not a known heading"));
    assert!(!message.contains("Remarks"));
    let absent = stopped(&content, &[&skip[..], &["--skip", "remark"]].concat());
    assert!(
        absent.contains("--skip \"remark\": no column is headed so"),
        "{absent}"
    );
    let unheaded = stopped(ROW_A, &["--skip", "remarks"]);
    assert!(
        unheaded.contains("--skip \"remarks\": there is no header"),
        "{unheaded}"
    );
    // A known heading of another column's is passed over too, so that one of two can be chosen.
    let both = format!("width,{HEADER}\n500,{ROW_A}\n");
    assert!(stopped(&both, &[]).contains("headed twice"));
    assert!(Scratch::new(both.as_bytes())
        .run(&["--skip", "Width"])
        .line("A ")
        .contains("75 × 300"));
}

/// A row with blank cells to the last.
fn to_width(row: &str) -> String {
    let missing = HEADER.split(',').count() - row.split(',').count();
    row.to_owned() + &",".repeat(missing)
}

#[test]
fn cells_without_a_column_are_blank_and_columns_without_a_heading_stay_empty() {
    let content = "name,kind,grade,,regime,moisture,factor,b,h,Q\n\
        A,2,1,,3,10,1000,75,300,20000\n\
        B,2,1,x,3,10,1000,75,300,20000\n\
        C,2,1,,3,10,1000,75,300,20000,,20000000\n";
    let run = table(content);
    for (member, reason) in [
        ("A ", "cell 9 moment M: blank, but kind 2 needs it"),
        ("B ", "column 4: \"x\" stands below no heading"),
        ("C ", "column 12: \"20000000\" stands below no heading"),
    ] {
        assert!(run.line(member).ends_with(reason), "{}", run.out);
    }
}

#[test]
fn a_header_below_rows_stops_the_sheet() {
    let rows = format!("{ROW_A}\n").repeat(40);
    let exchanged = HEADER.replace("b,h", "h,b");
    for (above, header, in_order) in [
        (
            HEADER,
            exchanged.as_str(),
            "42 rows: 41 passed, 0 failed, 1 refused",
        ),
        ("x", HEADER, "43 rows: 41 passed, 0 failed, 2 refused"),
    ] {
        let content = format!("{above}\n{rows}{header}\n{ROW_A}\n");
        let stopped = table(&content);
        assert_eq!(stopped.code, 2);
        let message = "line 42 is another header: one table a sheet";
        assert!(stopped.err.contains(message), "{}", stopped.err);
        assert_eq!(by_position(&content).summary(), in_order);
    }
    let in_full = HEADER
        .replace(",b,h,", ",\"width\nb, mm\",height h (mm),")
        .replace("moisture", "Влажность");
    for header in [HEADER, &in_full] {
        for repeated in [HEADER, &in_full] {
            let sheet = format!("{header},,\n{rows}{repeated}\n{ROW_A}\n");
            let run = table(&sheet);
            assert_eq!(
                run.summary(),
                "42 rows: 41 passed, 0 failed, 1 refused",
                "{}",
                run.err
            );
            let written = csv(&sheet).out;
            assert_eq!(csv(&written).out, written);
        }
    }
}

#[test]
fn the_example_in_order_is_the_example_by_its_headings() {
    let sheet = hall_roof();
    assert_eq!(by_position(&sheet).out, table(&sheet).out);
    for kind in ["Kind", "Вид", "kind of member"] {
        let unnamed = format!("{kind},grade,regime,remark\n{}\n", &ROW_A[2..]);
        assert!(by_position(unnamed).line("line 2 ").contains("69.1"));
    }
}
