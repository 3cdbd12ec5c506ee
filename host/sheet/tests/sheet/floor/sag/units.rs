//! Moments in other units than N·mm stop the sheet as they stop one of members, and n has no unit.
use super::beam;
use crate::common;
use crate::floor::{floor, stopped, BEAM, HEADER};

/// Units in which moments are typed elsewhere.
const OTHER_UNITS: [&str; 12] = [
    "kN·m",
    "kN m",
    "кН·м",
    "N·m",
    "Н·м",
    "kgf·m",
    "кгс·м",
    "тс·м",
    "kN·cm",
    "MN·m",
    "kN",
    "N",
];

#[test]
fn in_the_header_as_for_members() {
    for unit in OTHER_UNITS {
        for heading in [
            format!("Mn {unit}"),
            format!("Mn ({unit})"),
            format!("Нормативный момент [{unit}]"),
        ] {
            let sheet = format!("{HEADER},{heading},n\n{}\n", beam(2, 200));
            for options in [&[][..], &["--csv"], &["--strengths"]] {
                let message = stopped(&sheet, options);
                let problem =
                    format!("column 10, \"{heading}\": unfactored moment Mn has to be in N·mm\n");
                assert!(message.contains(&problem), "{message}");
            }
        }
        let members = format!("member;kind;M ({unit})\nA;2;20\n");
        let run = common::table(members);
        let problem = format!("column 3, \"M ({unit})\": moment M has to be in N·mm\n");
        assert!(run.err.contains(&problem), "{}", run.err);
    }
    for unit in ["N·mm", "N mm", "Н·мм", "N-mm"] {
        let sheet = format!("{HEADER},Mn ({unit}),n\n{}\n", beam(1_800_000, 200));
        assert!(
            floor(sheet, &[]).line("B1 ").contains("  pass    97.6  "),
            "{unit}"
        );
    }
    for unit in ["mm", "%", "N"] {
        let message = stopped(&format!("{HEADER},Mn,n ({unit})\n{}\n", beam(2, 200)), &[]);
        let problem = format!("column 11, \"n ({unit})\": limit n has no unit\n");
        assert!(message.contains(&problem), "{message}");
    }
}

#[test]
fn in_a_line_below_the_header() {
    let sheet = |units: &str| format!("{HEADER},Mn,n\n{units}\n{}\n", beam(1_800_000, 200));
    for (units, message) in [
        (
            ",N/m,N/m,mm,,%,‰,mm,mm,kN·m,",
            "line 2, column 10, \"kN·m\": unfactored moment Mn has to be in N·mm\n",
        ),
        (
            ",Н/м,Н/м,мм,,%,‰,мм,мм,кгс·м,–",
            "line 2, column 10, \"кгс·м\": unfactored moment Mn has to be in N·mm\n",
        ),
        (
            ",N/m,N/m,mm,,,,,,N·mm,mm",
            "line 2, column 11, \"mm\": limit n has no unit\n",
        ),
        (
            "moments in kN·m",
            "line 2, column 1, \"moments in kN·m\": loads have to be in N/m, moments in N·mm\n",
        ),
    ] {
        let given = stopped(&sheet(units), &[]);
        assert!(given.ends_with(message), "{given}");
    }
    let right = sheet(",N/m,N/m,mm,,%,‰,mm,mm,N·mm,–");
    let run = floor(right, &[]);
    assert_eq!(run.summary(), "2 rows: 1 passed, 0 failed, 1 refused");
    assert!(run.line("B1 ").contains("  pass    97.6  "), "{}", run.out);
}

#[test]
fn in_a_line_above_the_header() {
    let sheet = |above: &str, columns: &str| {
        let asking = beam(1_800_000, 200);
        format!("{above}\n{HEADER}{columns}\n{asking}\n")
    };
    for title in ["Moments in kN·m", "Mn in kN·m", "Моменты в кгс·м", "Mn, MN"] {
        let quoted = format!("\"{title}\"");
        let message = stopped(&sheet(&quoted, ",Mn,n"), &[]);
        let end = format!("\"{title}\": loads have to be in N/m, moments in N·mm\n");
        assert!(message.ends_with(&end), "{message}");
    }
    let above_column = stopped(&sheet(",,,,,,,,,N·m", ",Mn,n"), &[]);
    assert!(
        above_column.contains(" have to be in N/m, moments in N·mm"),
        "{above_column}"
    );
    let above_span = stopped(&sheet(",,,m", ",Mn,n"), &[]);
    assert!(
        above_span.ends_with("\"m\": span has to be in mm\n"),
        "{above_span}"
    );
    // The symbol is no unit, and N·mm is one of the sheet's.
    for title in [
        "Mn by statics",
        "Мн по расчёту",
        ",,,,,,,,,N·mm",
        ",,,,,,,,,Mn",
    ] {
        let run = floor(sheet(title, ",Mn,n"), &[]);
        assert!(
            run.line("B1 ").contains("  pass    97.6  "),
            "{title}: {}",
            run.err
        );
        assert!(run.err.contains("is passed over"), "{}", run.err);
    }
    // Without these columns all is as it was.
    let without = |above: &str| stopped(&format!("{above}\n{HEADER}\n{BEAM}\n"), &[]);
    assert!(without("Mn by statics").ends_with("loads have to be in N/m\n"));
    assert!(without(",N·mm").ends_with("permanent and long-term load has to be in N/m\n"));
    assert!(without(",Loads (n)").ends_with("permanent and long-term load has to be in N/m\n"));
}
