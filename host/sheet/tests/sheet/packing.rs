//! `--pack`: the rows as the add-in packs them, and as the program `schedule` reads them.
use crate::common::{
    cells_of, command, hall_roof, on_terminal, run, Scratch, HEADER, ROW_A, ROW_B, ROW_E,
};
use lvl_addin::entry;
use lvl_addin::row::{HostRow, CELLS};
use std::path::{Path, PathBuf};
use std::process::{Command, Stdio};

const HALL_ROOF: &str = "../../examples/hall-roof.csv";

fn in_package(path: &str) -> PathBuf {
    Path::new(env!("CARGO_MANIFEST_DIR")).join(path)
}

/// The exit code, the bytes and the error output.
fn packed(content: &str) -> (i32, Vec<u8>, String) {
    let file = Scratch::new(content.as_bytes());
    let output = command().arg("--pack").arg(&file.0).output().unwrap();
    let err = String::from_utf8(output.stderr).unwrap();
    (output.status.code().unwrap(), output.stdout, err)
}

#[test]
fn rows_are_packed_by_the_addin() {
    let rows = [ROW_A, ROW_B, "C,9,9,9", ROW_E];
    let bytes = rows
        .map(|row| entry::pack(&cells_of(row)).unwrap())
        .concat();
    let (code, out, err) = packed(&format!("{HEADER}\n\n{}\n", rows.join("\n")));
    assert_eq!(
        (code, out, err.as_str()),
        (0, bytes, "4 rows: 4 packed, 0 refused\n")
    );
}

/// What stands for a row that cannot be packed.
const BLANK_ROW: [u8; 3] = [0; 3];

#[test]
fn a_row_that_cannot_be_packed_is_blank_and_said_to_be() {
    let spoilt = ROW_B
        .replace("B,", "B \u{202e}left,")
        .replace("50000", "see statics");
    let sheet = [HEADER, "", ROW_A, &spoilt, &format!("{ROW_E},5"), ROW_E].join("\n");
    let (code, out, err) = packed(&sheet);
    let [a, e] = [ROW_A, ROW_E].map(|row| entry::pack(&cells_of(row)).unwrap());
    let bytes = [&a[..], &BLANK_ROW, &BLANK_ROW, &e].concat();
    assert_eq!((code, out), (1, bytes));
    assert_eq!(
        err,
        "sheet: note: row 2, line 4, \"B \u{fffd}left\", is packed as a blank row: \
            cell 8 axial force N: \"see statics\" is not a number\n\
         sheet: note: row 3, line 5, \"E\", is packed as a blank row: \
            column 24: \"5\" stands below no heading\n\
         4 rows: 2 packed, 2 refused\n"
    );
}

/// Before a sheet is known to be clear to its end, nothing is written: half of it would look like the whole.
#[test]
fn a_sheet_that_is_not_clear_packs_nothing() {
    let exchanged = HEADER.replace("b,h", "h,b");
    let rows = format!("{ROW_A}\n").repeat(40);
    let (code, out, err) = packed(&format!("{HEADER}\n{rows}{exchanged}\n{ROW_A}\n"));
    assert_eq!((code, out), (2, Vec::new()));
    assert!(err.contains("line 42 is another header"), "{err}");
}

#[test]
fn the_program_judges_what_was_packed_as_the_sheet_does() {
    let program = in_package("../../target/bin/schedule");
    let mut packing = command()
        .arg("--pack")
        .arg(in_package(HALL_ROOF))
        .stdout(Stdio::piped())
        .stderr(Stdio::null())
        .spawn()
        .unwrap();
    let scheduled = Command::new(&program)
        .stdin(packing.stdout.take().unwrap())
        .output()
        .unwrap_or_else(|why| panic!("{}: {why}; `make program` builds it", program.display()));
    assert_eq!(packing.wait().unwrap().code(), Some(1));
    assert_eq!(String::from_utf8(scheduled.stderr).unwrap(), "");
    let sheet = hall_roof();
    let expected: Vec<String> = (1..)
        .zip(sheet.lines().skip(1))
        .map(|(number, row)| line_of(number, &cells_of(row)))
        .collect();
    assert_eq!(expected.len(), 63);
    let lines = String::from_utf8(scheduled.stdout).unwrap();
    assert_eq!(lines.lines().collect::<Vec<_>>(), expected);
}

/// The program's line for a row, by the add-in itself.
fn line_of(number: usize, cells: &HostRow) -> String {
    // A blank row stands for one that cannot be read.
    let cells = match entry::pack(cells) {
        Ok(_) => cells,
        Err(_) => &[None; CELLS],
    };
    match entry::check(cells) {
        Ok(verdict) => {
            let word = if verdict.passes { "pass" } else { "fail" };
            let (check, utilisation, count) = (verdict.check, verdict.utilisation, verdict.count);
            format!("{number} {word} {check} {utilisation} {count}")
        }
        Err(refusal) => format!("{number} refused {} {}", refusal.number, refusal.cell),
    }
}

#[test]
fn packed_rows_are_not_for_a_terminal() {
    let file = Scratch::new(format!("{HEADER}\n{ROW_A}\n").as_bytes());
    let shown = on_terminal(&["--pack", file.path()]);
    assert!(
        shown.contains("packed rows are bytes and not for a terminal"),
        "{shown}"
    );
    for arguments in [["--pack", "--csv", "a.csv"], ["--csv", "--pack", "a.csv"]] {
        let run = run(&arguments);
        assert_eq!((run.code, run.out.as_str()), (2, ""));
        assert!(run
            .err
            .contains("--csv, --pack and --strengths are three forms: one at a time"));
    }
}
