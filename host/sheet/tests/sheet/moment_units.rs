//! Units in which statics give moments, and that no cell has, stop the sheet wherever they stand.
use crate::common::{self, Run};
use crate::floor::floor;

#[rustfmt::skip]
const UNITS: [&str; 40] = [
    "kg·m", "кг·м", "kgm", "кгм", "кг*м", "кг·см", "kgf·m", "кгс·м", "t·m", "т·м", "tm", "тм", "т·см", "tf·m", "тс·м",
    "daN·m", "даН·м", "даНм", "daN·cm", "daN", "даН", "lbf·ft", "ft·lbf", "lb·ft", "kip·ft", "kN·m", "Н·м",
    "10⁶ N·mm", "10⁶·Н·мм", "×10⁶ N·mm", "x10³ Н·мм", "10^6 N·mm", "10³ N", "N·mm × 10⁶", "Н·мм·10^6",
    "тыс. Н·мм", "тыс.Н·мм", "млн Н·мм", "млн. Н·мм", "тыс. Н",
];

/// The same with a blank or a full stop in place of the sign of multiplication.
const PARTED: [&str; 10] = [
    "kg m",
    "кг м",
    "кг.м",
    "кг · м",
    "t m",
    "т м",
    "т.м",
    "т.см",
    "N m",
    "Н.м",
];

/// A sheet with a moment: its lines around the header, and how loads and forces have to be.
struct Sheet {
    header: &'static str,
    row: &'static str,
    /// What stands before the moment in a line.
    before_moment: &'static str,
    moment: &'static str,
    wanted: &'static str,
    run: fn(String) -> Run,
}

const MEMBERS: Sheet = Sheet {
    header: "member,kind,grade,regime,moisture,factor,b,h,M,Q",
    row: "A,2,1,3,10,1000,75,300,356,20000",
    before_moment: ",,,,,,,,",
    moment: "moment M",
    wanted: "forces have to be in N, moments in N·mm\n",
    run: |content| common::table(content),
};

const BEAMS: Sheet = Sheet {
    header: "beam,permanent and long-term load,remaining load,span,grade,moisture,factor,b,h,Mn,n",
    row: "B1,900,800,4570,1,12,1000,45,240,356,250",
    before_moment: ",,,,,,,,,",
    moment: "unfactored moment Mn",
    wanted: "loads have to be in N/m, moments in N·mm\n",
    run: |content| floor(content, &[]),
};

impl Sheet {
    fn message(&self, lines: [&str; 3]) -> String {
        let run = (self.run)(lines.join("\n") + "\n");
        assert_eq!((run.code, run.out.as_str()), (2, ""), "{lines:?}");
        run.err
    }
}

#[test]
fn in_a_title() {
    for sheet in [MEMBERS, BEAMS] {
        for unit in UNITS.into_iter().chain(PARTED) {
            for title in [
                format!("моменты в {unit}"),
                format!("Moments ({unit})"),
                format!("Hall 3 - moments in {unit} by statics"),
                format!("{}{unit}", sheet.before_moment),
                format!("{}\"M, {unit}\"", sheet.before_moment),
            ] {
                let message = sheet.message([&title, sheet.header, sheet.row]);
                assert!(message.ends_with(sheet.wanted), "{message}");
                assert!(message.contains(": line 1, column "), "{message}");
            }
        }
    }
}

#[test]
fn below_the_header() {
    for sheet in [MEMBERS, BEAMS] {
        for unit in UNITS {
            let in_column = format!("{}{unit}", sheet.before_moment);
            let message = sheet.message([sheet.header, &in_column, sheet.row]);
            let problem = format!("\"{unit}\": {} has to be in N·mm\n", sheet.moment);
            assert!(message.ends_with(&problem), "{message}");
            let alone = format!("moments in {unit}");
            let message = sheet.message([sheet.header, &alone, sheet.row]);
            assert!(message.ends_with(sheet.wanted), "{message}");
        }
    }
}

#[test]
fn in_the_header() {
    for sheet in [MEMBERS, BEAMS] {
        let symbol = if sheet.moment.ends_with("Mn") {
            "Mn"
        } else {
            "M"
        };
        for unit in UNITS {
            let heading = format!("{symbol} ({unit})");
            let columns = sheet.header.split(',');
            let headings: Vec<&str> = columns
                .map(|column| if column == symbol { &heading } else { column })
                .collect();
            let message = sheet.message(["title", &headings.join(","), sheet.row]);
            let problem = format!("\"{heading}\": {} has to be in N·mm\n", sheet.moment);
            assert!(message.contains(&problem), "{message}");
        }
    }
}

/// Initials, the cells' own units, numbers of them, and words that only look like units.
#[test]
fn what_is_no_other_unit() {
    for sheet in [MEMBERS, BEAMS] {
        for title in [
            "Checked: T.M. Smith",
            "Проверил: Т.М. Иванов",
            "Расчёт: Н. М. Петров",
            "Moments in N·mm",
            "Моменты в Н·мм",
            "Moments up to 1000000 N·mm",
            "Масса до 120 кг",
            "Hall of 1000 t",
            "10⁶",
            "млн руб.",
            "Снеговая нагрузка 180 кг/м²",
        ] {
            // A load for a square metre might be meant for one on a beam, unless the headings say that it is not.
            let header = sheet.header.replace("load,", "load N/m,");
            let run = (sheet.run)([title, &header, sheet.row].join("\n"));
            assert_ne!(run.code, 2, "{title}: {}", run.err);
            assert!(run.err.contains("is passed over"), "{}", run.err);
        }
    }
}
