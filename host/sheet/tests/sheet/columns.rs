//! Separators, headers and names, columns that are missing or too many.
use crate::common::{by_position, table, table_of, to_last_cell, HEADER, ROW_A, ROW_E};
use lvl_addin::row::CELLS;
use lvl_sheet::words;

#[test]
fn separators_and_decimal_commas() {
    let header = HEADER.replace(',', ";");
    let semicolons = format!("{header}\nA, first;2;1;3;10,0;1 000;75,0;300;;2E+07;20000\n");
    assert!(table(semicolons)
        .line("A, first")
        .ends_with("69.1       –  bending, 7.9"));
    let tabs = format!("{HEADER}\n{ROW_A}\n").replace(',', "\t");
    assert!(table(tabs)
        .line("A ")
        .ends_with("69.1       –  bending, 7.9"));
    let unclear = format!("{header}\nA;2;1;3;10;1000;75;300;;20000000;20,000\n");
    let reason = "cell 10 shear force Q: \"20,000\" can be read in two ways: leave the mark out";
    assert!(table(unclear).line("A ").ends_with(reason));
    let points = format!("{HEADER}\nA,2.0,1.00,3.,10,1e3,75,300,,20000000.00,\"20000\"\n");
    assert!(table(points)
        .line("A ")
        .ends_with("69.1       –  bending, 7.9"));
}

#[test]
fn with_and_without_header_and_names() {
    let cells = &ROW_A[2..];
    assert!(table(format!("{ROW_A}\n")).line("A ").contains("69.1"));
    assert!(table(cells).line("line 1 ").contains("69.1"));
    let unnamed = HEADER.replace("member,", "");
    assert!(table(format!("{unnamed}\n\n{cells}"))
        .line("line 3 ")
        .contains("69.1"));
    assert!(table(format!("{HEADER}\n,{cells}\n"))
        .line("line 2 ")
        .contains("69.1"));
}

#[test]
fn missing_and_extra_columns() {
    assert!(table_of(&["T1"])
        .line("T1 ")
        .ends_with("cell 1 kind: blank"));
    assert!(table_of(&["T1,2,1,3,10"])
        .line("T1 ")
        .ends_with("cell 5 office factor: blank, but kind 2 needs it"));
    assert_eq!(table_of(&[&format!("{ROW_E},,, ,")]).code, 0);
    let whole = to_last_cell(&ROW_E[2..], ',');
    let run = table_of(&[&format!("E,{whole},,remark"), ROW_A]);
    let column = 1 + CELLS + 2;
    assert!(run.line("E ").ends_with(&format!(
        "column {column}: \"remark\" stands below no heading"
    )));
    assert_eq!(run.summary(), "2 rows: 1 passed, 0 failed, 1 refused");
    let run = by_position(format!("{HEADER}\nE,{whole},,remark\n{ROW_A}"));
    let last = words::cell_words(CELLS).unwrap().name;
    assert!(run.line("E ").ends_with(&format!(
        "column {column}: \"remark\" stands past the last cell, {CELLS} {last}"
    )));
    assert_eq!(run.summary(), "2 rows: 1 passed, 0 failed, 1 refused");
}
