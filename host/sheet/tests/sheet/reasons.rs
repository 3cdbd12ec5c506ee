//! Refusals in words, and the ranges that people are shown.
use crate::common::{cells_of, table_of, ROW_E};
use lvl_addin::answer::Refusal;
use lvl_addin::entry;
use lvl_addin::row::CELLS;
use lvl_sheet::words;

#[test]
fn what_is_wrong_with_a_cell() {
    let with = |cell: usize, text: &str| {
        let mut fields: Vec<&str> = ROW_E.split(',').collect();
        fields[cell] = text;
        fields.join(",")
    };
    #[rustfmt::skip]
    let reasons = [
        (with(1, ""), "cell 1 kind: blank"),
        (with(1, "6"), "cell 1 kind: 6 is not a known code"),
        (with(6, "wide"), "cell 6 width b: \"wide\" is not a number"),
        (with(6, "100 mm"), "cell 6 width b: \"100 mm\" is not a number"),
        (with(6, "NaN"), "cell 6 width b: \"NaN\" is not a number"),
        (with(6, "inf"), "cell 6 width b: \"inf\" is not a number"),
        (with(6, "=A1*2"), "cell 6 width b: \"=A1*2\" is not a number"),
        (with(6, "#REF!"), "cell 6 width b: \"#REF!\" is not a number"),
        (with(6, "1e400"), "cell 6 width b: 1e400 is too great"),
        (with(6, "-1e400"), "cell 6 width b: -1e400 is below zero"),
        (with(6, "99999999999"), "cell 6 width b: 99999999999 is too great"),
        (with(6, "-100"), "cell 6 width b: -100 is below zero"),
        (with(6, "100.5"), "cell 6 width b: 100.5 is not a whole number"),
        (with(6, "\"100,5\""), "cell 6 width b: \"100,5\" is not a number"),
        (with(6, "301"), "cell 6 width b: 301 is outside 20 to 300 mm"),
        (with(9, "1"), "cell 9 moment M: filled, but not for kind 1"),
        (with(8, ""), "cell 8 axial force N: blank, but kind 1 needs it"),
        (with(13, "3"), "cell 13 Table 16 row: 3 is not a row for this kind"),
        (with(14, ""), "cell 14 side piece a: blank, but a joint is begun"),
        (with(22, ""), "cell 22 km: blank, but a joint is begun"),
        (with(22, "99"), "cell 22 km: 99 is outside 100 to 5000 hundredths of N/mm²"),
    ];
    for (row, reason) in reasons {
        let run = table_of(&[&row]);
        assert!(
            run.line("E ").ends_with(reason),
            "{} instead of {reason}",
            run.line("E ")
        );
        assert_eq!(
            (run.code, run.summary()),
            (1, "1 row: 0 passed, 0 failed, 1 refused")
        );
    }
}

/// The ranges that people are shown are those that the add-in keeps.
#[test]
fn ranges_in_words_are_the_addins() {
    let e = cells_of(ROW_E);
    let strut = cells_of("S,4,1,1,10,1000,100,300,50000,40000000,20000,3000,2000,2");
    let is_code = |cell: &usize| matches!(cell, 1..=3 | 13);
    for cell in (1..=CELLS).filter(|cell| !is_code(cell)) {
        let row = if matches!(cell, 9 | 10) { strut } else { e };
        let (least, most) = words::cell_words(cell)
            .unwrap()
            .range
            .split_once(" to ")
            .unwrap();
        let (least, most): (f64, f64) = (least.parse().unwrap(), most.parse().unwrap());
        let with = |number| {
            let mut cells = row;
            cells[cell - 1] = Some(number);
            entry::check(&cells)
        };
        assert!(with(least).is_ok() && with(most).is_ok(), "cell {cell}");
        let outside = Err(Refusal {
            number: 4,
            cell: cell as u32,
        });
        assert_eq!(with(most + 1.0), outside);
        assert!(least == 0.0 || with(least - 1.0) == outside, "cell {cell}");
    }
}
