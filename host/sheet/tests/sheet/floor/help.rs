//! `--help` explains floor beams: cells, ranges, units, headings, what is made of them.
use crate::common::run;
use lvl_sheet::floor_beams;

#[test]
fn help_explains_floor_beams() {
    let out = run(&["--help"]).out;
    assert!(out.contains("\n  --floor  "), "{out}");
    let (_, section) = out.split_once("\nFloor beams, with --floor: ").unwrap();
    let (_, list) = section
        .split_once("that are known with --floor:\n")
        .unwrap();
    let list = list.split_whitespace().collect::<Vec<_>>().join(" ");
    let schema = floor_beams::schema();
    for cell in &schema.cells {
        let line = |line: &&str| {
            let words: Vec<&str> = line.split("  ").map(str::trim).collect();
            words.contains(&cell.words.name) && words.contains(&cell.words.range)
        };
        let line = section.lines().find(line).expect(cell.words.name);
        assert!(line.contains(cell.words.unit), "{line}");
        for name in cell.names.words {
            assert!(list.contains(name), "{name}");
        }
    }
    for answer in &schema.answers {
        assert!(list.contains(answer.heading), "{}", answer.heading);
    }
    for part in [
        "has to be 100 to 100000 N/m",
        "Where more than\n80 percent of it is permanent or long-term the regime is Б, and up to that В.",
        "strength alone, without lateral stability, and\nwithout sag unless Mn or n is filled",
        "Loads are design values",
        "M = q × span² / 8000 in N·mm and Q = q × span / 2000 in N, both rounded up",
        "is refusal 8, before all others",
        "rounded up to two decimals",
        "kN/m,\nкгс/м or кг·м stops the sheet",
    ] {
        assert!(section.contains(part), "{part}");
    }
}

#[test]
fn usage_names_the_option() {
    assert!(run(&[])
        .err
        .contains("usage: sheet [--floor] [--csv | --pack | --strengths] "));
}
