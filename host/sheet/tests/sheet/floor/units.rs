//! Loads in other units than N/m stop the sheet, wherever they stand.
use super::{stopped, table, BEAM, HEADER, JUDGED};
use crate::common;

#[test]
fn in_the_header() {
    for (heading, message) in [
        (
            "permanent and long-term load kN/m",
            "permanent and long-term load has to be in N/m\n",
        ),
        (
            "Постоянная и длительная нагрузка (кН/м)",
            "permanent and long-term load has to be in N/m\n",
        ),
        (
            "Постоянная и длительная, кгс/м",
            "permanent and long-term load has to be in N/m\n",
        ),
        ("remaining load N", "remaining load has to be in N/m\n"),
        ("remaining load kN/m²", "remaining load has to be in N/m\n"),
        ("span m", "span has to be in mm\n"),
        ("Пролёт L, м", "span has to be in mm\n"),
    ] {
        let sheet = format!("beam;grade;{heading}\nB1;1;2\n");
        let message_given = stopped(&sheet, &[]);
        let problem = format!("column 3, \"{heading}\": {message}");
        assert!(message_given.contains(&problem), "{message_given}");
        assert!(stopped(&sheet, &["--csv"]).contains(&problem));
    }
}

#[test]
fn in_a_line_below_the_header() {
    let with_units = |units: &str| format!("{HEADER}\n{units}\n{BEAM}\n");
    for (units, message) in [
        (
            ",kN/m,kN/m,mm",
            "line 2, column 2, \"kN/m\": permanent and long-term load has to be in N/m\n",
        ),
        (
            ",Н/м,кН/м,мм",
            "line 2, column 3, \"кН/м\": remaining load has to be in N/m\n",
        ),
        (
            ",N/m,N/m,m",
            "line 2, column 4, \"m\": span has to be in mm\n",
        ),
        (
            ",N/m,N/m,mm,,,,,cm",
            "line 2, column 9, \"cm\": height h has to be in mm\n",
        ),
        (
            "loads in kN/m",
            "line 2, column 1, \"loads in kN/m\": loads have to be in N/m\n",
        ),
        (
            ",,,,,,,,\"all, тыс. Н/м\"",
            "line 2, column 9, \"all, тыс. Н/м\": loads have to be in N/m\n",
        ),
    ] {
        let message_given = stopped(&with_units(units), &[]);
        assert!(message_given.ends_with(message), "{message_given}");
    }
    for units in [",N/m,N/m,mm,,%,‰,mm,mm", ",Н/м,Н/м,мм,,%,‰,мм,мм"] {
        let run = table(with_units(units));
        assert_eq!(run.summary(), "2 rows: 1 passed, 0 failed, 1 refused");
        assert!(run.line("B1 ").ends_with(JUDGED), "{}", run.out);
    }
}

#[test]
fn in_a_line_above_the_header() {
    let sheet = |above: &str| format!("{above}\n{HEADER}\n{BEAM}\n").replace(',', ";");
    for (above, message) in [
        (
            "Loads in kN/m",
            "line 1, column 1, \"Loads in kN/m\": loads have to be in N/m\n",
        ),
        (
            "Нагрузки в кН/п.м",
            "line 1, column 1, \"Нагрузки в кН/п.м\": loads have to be in N/m\n",
        ),
        (
            ",Нагрузки (кгс/м)",
            "line 1, column 2, \"Нагрузки (кгс/м)\": loads have to be in N/m\n",
        ),
        (
            "Loads in kN",
            "line 1, column 1, \"Loads in kN\": loads have to be in N/m\n",
        ),
        (
            ",Loads (N)",
            "line 1, column 2, \"Loads (N)\": permanent and long-term load has to be in N/m\n",
        ),
        (
            ",Loads (kN/m²)",
            "line 1, column 2, \"Loads (kN/m²)\": permanent and long-term load has to be in N/m\n",
        ),
        (
            ",,,Length (m)",
            "line 1, column 4, \"Length (m)\": span has to be in mm\n",
        ),
    ] {
        let message_given = stopped(&sheet(above), &[]);
        assert!(message_given.ends_with(message), "{message_given}");
    }
    for above in ["House 12: 9 x 11 m", ",Loads (N/m),,mm", "Нагрузки в Н/п.м"] {
        let run = table(sheet(above));
        assert!(run.line("B1 ").ends_with(JUDGED), "{above}: {}", run.err);
        assert!(run.err.contains("is passed over"), "{}", run.err);
    }
}

/// What one sheet has is another unit in the other.
#[test]
fn members_are_not_in_newtons_per_metre() {
    for (above, column) in [(";;;;Forces (N/m)", 5), (";;Section, N/m;;", 3)] {
        let run = common::table(format!("{above}\nmember;kind;b;h;N\nA;1;75;300;20\n"));
        assert_eq!((run.code, run.out.as_str()), (2, ""), "{above}");
        let place = format!("line 1, column {column}, ");
        assert!(run.err.contains(&place), "{}", run.err);
        assert!(run.err.contains(" has to be in "), "{}", run.err);
    }
}

/// A line with a width and a height is a beam, and a unit in it stands in the place of a number.
#[test]
fn beside_the_numbers_of_a_beam() {
    let sheet = |line: &str| format!("{HEADER}\n{line}\n{BEAM}\n");
    let run = table(sheet("x,kN/m,kN/m,4200,1,12,1000,45,160"));
    assert_eq!(run.summary(), "2 rows: 1 passed, 0 failed, 1 refused");
    for line in [
        "x,kN/m,400,4200,1,12,1000,mm,160",
        "x,kN/m,400,4200,1,12,1000,45,mm",
    ] {
        let message = stopped(&sheet(line), &[]);
        assert!(
            message.contains("line 2, column 2, \"kN/m\": "),
            "{message}"
        );
    }
}

/// Spans in centimetres and loads in kilograms for a square metre lie within their ranges: a title that speaks of them stops the sheet, unless the
/// headings themselves say in which units they are.
#[test]
fn a_title_in_units_that_the_headings_leave_open() {
    const STATED: &str = "beam,permanent and long-term load N/m,remaining load N/m,span mm,grade,moisture,factor,b mm,h mm";
    for title in [
        "Пролёты в см",
        "All dimensions in cm",
        "Нагрузки в кгс/м2",
        "Нагрузки: кг/кв.м",
        "Loads in kN/m²",
        "Полезная нагрузка 1.5 кПа (150 кгс/м²)",
    ] {
        let message = stopped(&format!("{title}\n{HEADER}\n{BEAM}\n"), &[]);
        assert!(
            message.ends_with("; where it is, say so in its heading\n"),
            "{message}"
        );
        let run = table(format!("{title}\n{STATED}\n{BEAM}\n"));
        assert!(run.line("B1 ").ends_with(JUDGED), "{title}: {}", run.err);
        assert!(run.err.contains("is passed over"), "{}", run.err);
    }
}

/// So it is with effective lengths of members.
#[test]
fn a_title_in_centimetres_above_members() {
    let member = "A;3;3;2;13;1000;100;200;50000;300;200;1";
    let sheet = |lengths: &str| {
        format!("Lengths in cm\nmember;kind;grade;regime;moisture;factor;b mm;h mm;N;{lengths};row of Table 16\n{member}\n")
    };
    let run = common::table(sheet("Lh;Lb"));
    assert_eq!((run.code, run.out.as_str()), (2, ""));
    assert!(
        run.err.ends_with("; where it is, say so in its heading\n"),
        "{}",
        run.err
    );
    assert_eq!(common::table(sheet("Lh mm;Lb mm")).code, 0);
}
