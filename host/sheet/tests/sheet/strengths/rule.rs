//! The rule once more, from the tables of SP 64, for every grade and regime, both sides of every moisture limit, and all kinds.
use super::{columns, row_lines, shown_for, strengths_of};

/// Table 7 in kPa: bending, compression, tension and shear of each grade.
const GRADES: [(&str, [u64; 4]); 3] = [
    ("K45", [39_000, 32_000, 31_000, 4_100]),
    ("K40", [34_000, 30_000, 27_000, 3_900]),
    ("K35", [30_000, 27_000, 24_000, 3_900]),
];

/// Code, letter, and t in hundredths.
const REGIMES: [(u64, &str, u64); 10] = [
    (1, "А", 100),
    (2, "Б", 53),
    (3, "В", 66),
    (4, "Г", 66),
    (5, "Д", 80),
    (6, "Е", 80),
    (7, "Ж", 92),
    (8, "И", 110),
    (10, "Л", 75),
    (11, "М", 100),
];

/// Percent, and w in hundredths.
const MOISTURES: [(u64, u64); 8] = [
    (0, 100),
    (12, 100),
    (13, 90),
    (15, 90),
    (16, 85),
    (20, 85),
    (21, 75),
    (60, 75),
];

/// Thousandths.
const FACTORS: [u64; 4] = [500, 742, 921, 1000];

/// What a row of each kind has from its width on.
const KINDS: [&str; 5] = [
    "100,200,100000,,,3000,3000,5",
    "75,300,,20000000,20000",
    "100,200,50000,,,3000,2000,1",
    "160,500,216000,61500000,24000,13200,3000,1",
    "150,350,260000,14200000,21000,6000,6000,4",
];

/// "24710 + 0.4000000", by long division.
fn in_full(product: u64) -> String {
    let mut rest = product % 10_000_000;
    let mut text = format!("{} + 0.", product / 10_000_000);
    for place in [1_000_000, 100_000, 10_000, 1_000, 100, 10, 1] {
        text += &(rest / place).to_string();
        rest %= place;
    }
    text
}

/// A row, and what stands in its columns.
type Case = (String, Vec<String>);

fn cases() -> Vec<Case> {
    let mut cases = Vec::new();
    for grade in 1..=GRADES.len() {
        for regime in REGIMES {
            for moisture in MOISTURES {
                for factor in FACTORS {
                    let kinds = 1..=KINDS.len();
                    cases.extend(kinds.map(|kind| case(kind, grade, regime, moisture, factor)));
                }
            }
        }
    }
    cases
}

fn case(
    kind: usize,
    grade: usize,
    (code, letter, t): (u64, &str, u64),
    (moisture, w): (u64, u64),
    factor: u64,
) -> Case {
    let (name, table) = GRADES[grade - 1];
    let rest = KINDS[kind - 1];
    let row = format!("m,{kind},{grade},{code},{moisture},{factor},{rest}");
    let typed = [
        "m".to_owned(),
        name.to_owned(),
        format!("{letter} ({code})"),
        moisture.to_string(),
        factor.to_string(),
    ];
    let strengths = table.map(|value| in_full(value * t * w * factor));
    let columns = typed.into_iter().chain(shown_for(kind, strengths));
    (row, columns.collect())
}

#[test]
fn every_strength_is_that_of_the_rule() {
    let cases = cases();
    let rows: Vec<&str> = cases.iter().map(|(row, _)| row.as_str()).collect();
    let run = strengths_of(&rows);
    assert_eq!(run.summary(), "4800 rows: 4800 with strengths, 0 refused");
    let lines = row_lines(&run);
    assert_eq!(lines.len(), cases.len());
    for (line, (row, expected)) in lines.iter().zip(&cases) {
        assert_eq!(columns(line), *expected, "{row}");
    }
    let is_dropped = |part: &str| !part.starts_with("0000000");
    let drops = |line: &&&str| line.split(" + 0.").skip(1).any(is_dropped);
    assert!(lines.iter().filter(drops).count() > 1000);
}

#[test]
fn digits_stand_under_one_another() {
    let cases = cases();
    let rows: Vec<&str> = cases.iter().map(|(row, _)| row.as_str()).collect();
    let run = strengths_of(&rows);
    let lines = row_lines(&run);
    let pluses = |line: &str| -> Vec<usize> {
        let letters = line.chars().enumerate();
        let pluses = letters.filter(|(_, letter)| *letter == '+');
        pluses.map(|(place, _)| place).collect()
    };
    for (line, kind) in lines.iter().zip((1..=KINDS.len()).cycle()) {
        assert_eq!(pluses(line), pluses(lines[kind - 1]), "{line}");
    }
}
