//! Line ends, marks, blank lines; UTF-16, Windows-1251, bytes that are no text; workbooks.
use crate::common::{command, csv, table, table_of, Scratch, HEADER, ROW_A, ROW_B};
use lvl_sheet::encoding::{Encoding, Letters};
use lvl_sheet::windows_1251;

/// A sheet with Russian headings and names, and a number with a space that does not break.
const RUSSIAN: &str =
    "Марка;Вид;Класс прочности;Режим;Влажность, %;Коэффициент, ‰;b, мм;h, мм;М, Н·мм;Q, Н\n\
    Прогон №1 – «ось 1»;2;1;3;10;1\u{a0}000;75;300;20\u{a0}000\u{a0}000;20000\n\
    Ёлка;2;1;3;10;1000;75;300;40000000;20000\n";

fn utf16(text: &str, bytes: fn(u16) -> [u8; 2]) -> Vec<u8> {
    text.encode_utf16().flat_map(bytes).collect()
}

/// The bytes that `--csv` writes.
fn csv_bytes(content: &[u8]) -> Vec<u8> {
    let file = Scratch::new(content);
    let output = command().arg("--csv").arg(&file.0).output().unwrap();
    output.stdout
}

#[test]
fn line_ends_marks_and_blank_lines() {
    let plain = table_of(&[ROW_A, ROW_B]).out;
    for end in ["\r\n", "\r", "\n\n", "\n,,,,\n", "\r\n \t\r\n"] {
        let content = [HEADER, ROW_A, ROW_B].join(end);
        assert_eq!(table(&content).out, plain, "{end:?}");
        assert_eq!(
            table(format!("\u{feff}{content}{end}")).out,
            plain,
            "{end:?}"
        );
    }
}

#[test]
fn a_line_end_of_two_bytes_is_one() {
    let lines = [HEADER, ROW_A, ROW_B];
    for end in ["\r\n", "\r"] {
        assert_eq!(
            csv(lines.join(end)).out,
            csv(lines.join("\n")).out,
            "{end:?}"
        );
    }
}

#[test]
fn every_encoding_gives_the_same_table() {
    let plain = table(RUSSIAN);
    assert_eq!(plain.err, "");
    assert!(plain.line("Прогон №1 – «ось 1»").contains("69.1"));
    assert_eq!(plain.summary(), "2 rows: 1 passed, 1 failed, 0 refused");
    let marked = format!("\u{feff}{RUSSIAN}");
    let guessed = "sheet: note: the text is not UTF-8 and is read as ";
    for (content, note) in [
        (marked.clone().into_bytes(), String::new()),
        (utf16(&marked, u16::to_le_bytes), String::new()),
        (utf16(&marked, u16::to_be_bytes), String::new()),
        (
            utf16(RUSSIAN, u16::to_le_bytes),
            format!("{guessed}UTF-16\n"),
        ),
        (
            utf16(RUSSIAN, u16::to_be_bytes),
            format!("{guessed}UTF-16\n"),
        ),
        (
            windows_1251::encode(RUSSIAN),
            format!("{guessed}Windows-1251\n"),
        ),
    ] {
        let run = table(&content);
        assert_eq!((run.out, run.err), (plain.out.clone(), note));
    }
}

#[test]
fn answers_go_out_as_the_sheet_came_in() {
    let plain = csv(RUSSIAN).out;
    assert!(plain.contains(";pass;7;690668;0;;\n"));
    let marked = format!("\u{feff}{plain}");
    for (content, answers) in [
        (windows_1251::encode(RUSSIAN), windows_1251::encode(&plain)),
        (
            utf16(RUSSIAN, u16::to_le_bytes),
            utf16(&plain, u16::to_le_bytes),
        ),
        (
            utf16(&format!("\u{feff}{RUSSIAN}"), u16::to_le_bytes),
            utf16(&marked, u16::to_le_bytes),
        ),
        (
            utf16(&format!("\u{feff}{RUSSIAN}"), u16::to_be_bytes),
            utf16(&marked, u16::to_be_bytes),
        ),
    ] {
        assert_eq!(csv_bytes(&content), answers);
        assert_eq!(csv_bytes(&answers), answers);
    }
}

#[test]
fn windows_1251_byte_by_byte() {
    let sample =
        b"\xCF\xF0\xEE\xE3\xEE\xED \xB91 \x96 \xABa\xBB \xA8\xB8 \x89 \xB7 \xA0\xC0\xDF\xE0\xFF";
    assert_eq!(
        windows_1251::decode(sample),
        "Прогон №1 – «a» Ёё ‰ · \u{a0}АЯая"
    );
    let all: Vec<u8> = (0..=255).collect();
    let decoded = windows_1251::decode(&all);
    assert_eq!(decoded.chars().count(), 256);
    assert_eq!(windows_1251::encode(&decoded), all);
    assert_eq!(windows_1251::encode("Н/мм²"), b"\xCD/\xEC\xEC?");
}

#[test]
fn broken_utf_8_stays_utf_8() {
    let mut content = format!("{HEADER}\nПрогон,{}\n", &ROW_A[2..]).into_bytes();
    content.extend_from_slice(b"B\xFF,2,1,3,10,1000,7\xD05,300,,20000000,20000\n");
    let run = table(&content);
    assert_eq!(run.err, "");
    assert!(run.line("Прогон").contains("69.1"));
    assert!(run
        .line("B\u{fffd}")
        .ends_with("cell 6 width b: \"7\u{fffd}5\" is not a number"));
    let out = csv_bytes(&content);
    let row = b"\nB\xFF,2,1,3,10,1000,7\xD05,300,";
    assert!(out.windows(row.len()).any(|part| part == row));
    // Letters that happen to look like UTF-8 do not make a text of Windows-1251 one.
    let mut mixed = b"\xCF\xB9".to_vec();
    mixed.extend_from_slice(&windows_1251::encode("Прогон"));
    let letters = |bytes: &[u8]| Encoding::of(bytes).letters;
    assert_eq!(letters(&mixed), Letters::Windows1251);
    assert_eq!(letters("75\u{a0}000".as_bytes()), Letters::Utf8);
    assert_eq!(letters(b"75\xA0000"), Letters::Windows1251);
    assert_eq!(letters(b"kind,\0b,h\0,\0\0"), Letters::Utf8);
    assert_eq!(letters(&[0; 1000]), Letters::Utf8);
    assert_eq!(letters(b""), Letters::Utf8);
}

#[test]
fn bytes_that_are_no_text() {
    let mut content = format!("{HEADER}\n").into_bytes();
    content.extend_from_slice(b"B\0\x1B[2J,2,1,3,10,1000,7\xFF5,300,,20000000,20000\n");
    assert!(table(&content)
        .line("B\u{fffd}\u{fffd}[2J")
        .ends_with("cell 6 width b: \"7я5\" is not a number"));
    let nothing_but_nul = table([0; 1000]);
    assert_eq!(
        (nothing_but_nul.code, nothing_but_nul.summary()),
        (1, "1 row: 0 passed, 0 failed, 1 refused")
    );
    let mut cut = utf16(&format!("\u{feff}{HEADER}\n{ROW_A}"), u16::to_le_bytes);
    cut.extend_from_slice(b"\x00\xD8\x30");
    let line = table(cut);
    let reason = "cell 10 shear force Q: \"20000\u{fffd}\u{fffd}\" is not a number";
    assert!(line.line("A ").ends_with(reason), "{}", line.out);
}

#[test]
fn a_workbook_is_no_sheet() {
    for begin in [
        &b"PK\x03\x04\x14\0\x06\0"[..],
        b"PK\x05\x06\0\0",
        b"\xD0\xCF\x11\xE0\xA1\xB1\x1A\xE1\0\0",
        b"<?xml version=\"1.0\"?>\n",
    ] {
        let run = table([begin, HEADER.as_bytes(), b"\n", ROW_A.as_bytes()].concat());
        assert_eq!((run.code, run.out.as_str()), (2, ""));
        assert!(
            run.err
                .ends_with(": this is a workbook; save the sheet as CSV\n"),
            "{}",
            run.err
        );
    }
    let run = table(format!("PK,{}\n", &ROW_A[2..]));
    assert!(run.line("PK ").contains("69.1"));
}
