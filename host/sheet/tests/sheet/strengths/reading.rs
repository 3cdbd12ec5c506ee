//! How a sheet is read does not depend on what is made of it: headings, order, encodings, quotes, marks, what stops it.
use super::{strengths, strengths_of};
use crate::common::{command, hall_roof, table, Run, Scratch, HEADER, ROW_A, ROW_B, ROW_E};
use crate::floor;
use lvl_sheet::windows_1251;
use std::fs::File;

const ROWS: [&str; 3] = [ROW_A, ROW_B, ROW_E];

/// The lines of `ROWS`: 39000 and 4100 × 0.66; 27000 × 0.53 × 0.9; 27000 × 0.66.
#[rustfmt::skip]
const LISTED: [&str; 3] = [
    "A       K45    В (3)         10      1000  25740 + 0.0000000                  –                  –   2706 + 0.0000000",
    "B       K35    Б (2)         13      1000                  –  12879 + 0.0000000                  –                  –",
    "E       K40    Г (4)         12      1000                  –                  –  17820 + 0.0000000                  –",
];

/// A line with blank fields as far as the header's last column.
fn to_last_column(line: &str) -> String {
    let columns = HEADER.split(',').count();
    let missing = columns - line.split(',').count();
    line.to_owned() + &",".repeat(missing)
}

fn assert_listed(run: &Run) {
    assert_eq!(super::row_lines(run), LISTED, "{}", run.err);
    assert_eq!(run.summary(), "3 rows: 3 with strengths, 0 refused");
    assert_eq!(run.code, 0);
}

#[test]
fn headings_in_any_order() {
    assert_listed(&strengths_of(&ROWS));
    let turned = |line: &str| {
        let fields = to_last_column(line);
        fields.rsplit(',').collect::<Vec<_>>().join(",")
    };
    let lines = [HEADER].into_iter().chain(ROWS).map(turned);
    assert_listed(&strengths(lines.collect::<Vec<_>>().join("\n"), &[]));
    // Grade and regime exchanged.
    let exchanged = HEADER.replace("grade,regime", "regime,grade");
    let run = strengths(format!("{exchanged}\n{ROW_A}\n"), &[]);
    let line = "A       K35    А (1)         10      1000  30000 + 0.0000000                  –                  –   3900 + 0.0000000";
    assert_eq!(run.line("A "), line);
}

#[test]
fn without_a_header_by_position_and_from_standard_input() {
    let rows = ROWS.join("\n");
    let unheaded = strengths(&rows, &[]);
    assert_listed(&unheaded);
    assert!(
        unheaded.err.contains("there is no header"),
        "{}",
        unheaded.err
    );
    assert_listed(&strengths(&rows, &["--by-position"]));
    let headed = format!("{HEADER}\n{rows}\n");
    assert_listed(&strengths(&headed, &["--by-position"]));
    let file = Scratch::new(headed.as_bytes());
    let mut from_input = command();
    from_input
        .args(["--strengths", "-"])
        .stdin(File::open(&file.0).unwrap());
    assert_listed(&Run::of(from_input.output().unwrap()));
}

#[test]
fn columns_of_the_office_are_passed_over() {
    let lines = [HEADER].into_iter().chain(ROWS);
    let with_remarks = |(line, remark)| format!("{remark},{line}");
    let remarks = ["remark", "1", "two", ""];
    let sheet = lines
        .zip(remarks)
        .map(with_remarks)
        .collect::<Vec<_>>()
        .join("\n");
    assert_listed(&strengths(&sheet, &["--skip", "Remark"]));
    let run = strengths(&sheet, &[]);
    assert_eq!((run.code, run.out.as_str()), (2, ""));
    assert!(
        run.err
            .contains("column 1, \"remark\": not a known heading"),
        "{}",
        run.err
    );
}

const RUSSIAN: &str = "\
Марка;Режим;Класс прочности;Вид;h, мм;b, мм;Влажность, %;Коэффициент, ‰;М, Н·мм;Q, Н
Прогон №1 – «ось 1»;3;1;2;300;75;20,0;9,77e2;20\u{a0}000\u{a0}000;20000
Ёлка;9;1;2;300;75;20;977;20000000;20000
";

/// 39000 × 66 × 85 × 977 = 213,757,830,000; 4100: 22,471,977,000.
#[rustfmt::skip]
const OF_RUSSIAN: &str = "\
Member               Grade  Regime  Moist. %  Factor ‰       Bending, kPa   Compression, kPa       Tension, kPa         Shear, kPa  Why refused
───────────────────────────────────────────────────────────────────────────────────────────────────────────────────────────────────────────────
Прогон №1 – «ось 1»  K45    В (3)         20       977  21375 + 0.7830000                  –                  –   2247 + 0.1977000
Ёлка                 K45    К (9)         20       977                  –                  –                  –                  –  cell 3 regime: 9 stands for К, which belongs to fire

R in full is the sum of both numbers, exactly; the checks use the first.
Bending is used by the check of bending (7) and of bending with an axial force (11), compression by buckling (9, 10) and, in kind 4, 11,
tension by net tension (5), side pieces (6) and, in kind 5, 11, shear by the check of shear (8).

2 rows: 1 with strengths, 1 refused
";

#[test]
fn every_encoding_gives_the_same_table() {
    let marked = format!("\u{feff}{RUSSIAN}");
    let utf16: Vec<u8> = marked.encode_utf16().flat_map(u16::to_le_bytes).collect();
    let windows = windows_1251::encode(RUSSIAN);
    assert!(std::str::from_utf8(&windows).is_err());
    for (content, note) in [
        (RUSSIAN.as_bytes(), ""),
        (marked.as_bytes(), ""),
        (&utf16, ""),
        (
            &windows,
            "sheet: note: the text is not UTF-8 and is read as Windows-1251\n",
        ),
    ] {
        let run = strengths(content, &[]);
        assert_eq!((run.out.as_str(), run.err.as_str()), (OF_RUSSIAN, note));
    }
}

#[test]
fn a_header_of_another_sheet() {
    let advice = "These are rather the headings of another sheet: a sheet of ";
    for (run, which) in [
        (
            strengths(floor::example(), &[]),
            "floor beams is judged with --floor\n",
        ),
        (
            strengths(hall_roof(), &["--floor"]),
            "members is judged without --floor\n",
        ),
    ] {
        assert_eq!((run.code, run.out.as_str()), (2, ""));
        assert!(
            run.err.ends_with(&format!("{advice}{which}")),
            "{}",
            run.err
        );
    }
}

/// The answers of an earlier `--csv` stand beside the cells and are passed over.
#[test]
fn answers_of_an_earlier_run() {
    let file =
        Scratch::new(format!("{HEADER}\n{}\n", ROWS.map(to_last_column).join("\n")).as_bytes());
    let written = file.run(&["--csv"]).out;
    assert!(written.contains(",verdict,check,"), "{written}");
    assert_listed(&strengths(written, &[]));
}

/// A sheet that stops the table stops this one with the same words, and nothing is written.
#[test]
fn what_is_not_clear_stops() {
    let exchanged = HEADER.replace("b,h", "h,b");
    for (sheet, message) in [
        (String::new(), "there are no rows"),
        (HEADER.to_owned(), "there are no rows"),
        (format!("{HEADER}\n,,,\n\n"), "there are no rows"),
        ("\n".repeat(10_000), "the first 10000 lines are blank"),
        (
            format!("{HEADER},N kN\n{ROW_A}\n"),
            "axial force N has to be in N",
        ),
        (format!("{HEADER},b\n{ROW_A}\n"), "width b is headed twice"),
        (
            format!("{ROW_A}\n{HEADER}\n{ROW_B}\n"),
            "looks like a member",
        ),
        (
            format!(
                "{HEADER}\n{}{exchanged}\n{ROW_A}\n",
                format!("{ROW_A}\n").repeat(1200)
            ),
            "line 1202 is another header",
        ),
        ("PK\x03\x04".to_owned(), "this is a workbook"),
    ] {
        let run = strengths(&sheet, &[]);
        assert_eq!((run.code, run.out.as_str()), (2, ""), "{message}");
        assert!(run.err.contains(message), "{}", run.err);
        let without_path = |err: &str| err.split_once(".csv: ").unwrap().1.to_owned();
        assert_eq!(without_path(&run.err), without_path(&table(&sheet).err));
    }
}
