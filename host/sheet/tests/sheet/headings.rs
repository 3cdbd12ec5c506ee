//! What a heading names: the whole list of names, units, letters that look alike.
use crate::common::{hall_roof, HEADER};
use lvl_addin::row::CELLS;
use lvl_sheet::headings::{key, known, read, Heading, Meaning};
use lvl_sheet::words;
use std::collections::HashMap;

/// What the usual terms of SP 64 in Russian name, a few for each cell.
#[rustfmt::skip]
const RUSSIAN: [&[&str]; CELLS] = [
    &["вид", "тип"],
    &["класс прочности", "сорт", "класс"],
    &["режим нагружения", "режим"],
    &["влажность", "влажность, %"],
    &["коэффициент", "коэффициент, ‰"],
    &["ширина b", "ширина", "ширина b, мм", "b, мм"],
    &["высота h", "высота", "высота сечения, мм", "h (мм)"],
    &["продольная сила N", "продольная сила", "усилие N", "продольное усилие, Н", "N, Н"],
    &["изгибающий момент M", "момент", "момент М, Н·мм", "М [Н*мм]", "изгибающий момент, Нмм"],
    &["поперечная сила Q", "поперечная сила, Н", "Q (Н)"],
    &["расчётная длина Lh", "расчетная длина Lh, мм"],
    &["расчётная длина Lb", "расчетная длина Lb, мм"],
    &["строка таблицы 16", "строка табл. 16"],
    &["толщина накладки a", "толщина накладки а, мм", "накладка"],
    &["диаметр нагеля d", "диаметр нагеля, мм"],
    &["нагелей поперёк", "нагелей поперек r", "число нагелей в ряду, шт."],
    &["длина соединения", "длина соединения, мм"],
    &["кс", "kc, сотые Н/мм²"],
    &["ка", "ka, 0,01 Н/мм2"],
    &["КВ", "kb"],
    &["ке", "Ke"],
    &["км", "KM"],
];

#[test]
fn no_name_names_two_things() {
    let mut by_key = HashMap::new();
    for (heading, name) in known() {
        let earlier = by_key.insert(key(&name), heading);
        assert!(earlier.map_or(true, |earlier| earlier == heading), "{name}");
        assert_eq!(read(&name), Meaning::Known(heading), "{name}");
    }
    for number in 1..=CELLS {
        let names = known().filter(|(heading, _)| *heading == Heading::Cell(number));
        assert!(names.count() > 1, "cell {number}");
    }
}

#[test]
fn the_names_of_the_help_the_example_and_the_tests() {
    for (number, cell) in (1..).zip(words::cells()) {
        let meaning = Meaning::Known(Heading::Cell(number));
        assert_eq!(read(cell.name), meaning);
        assert_eq!(read(&format!("{} {}", cell.name, cell.unit)), meaning);
    }
    let example = hall_roof();
    for header in [HEADER, example.lines().next().unwrap()] {
        let meanings: Vec<Meaning> = header.split(',').map(read).collect();
        let cells = (1..=CELLS).map(Heading::Cell);
        let expected = [Heading::Member].into_iter().chain(cells);
        assert_eq!(meanings, expected.map(Meaning::Known).collect::<Vec<_>>());
    }
}

#[test]
fn the_terms_in_russian() {
    for name in ["элемент", "Марка", "имя", "Наименование", "позиция", "Поз."]
    {
        assert_eq!(read(name), Meaning::Known(Heading::Member), "{name}");
    }
    for (number, names) in (1..).zip(RUSSIAN) {
        for name in names {
            let meaning = Meaning::Known(Heading::Cell(number));
            assert_eq!(read(name), meaning, "{name}");
            assert_eq!(read(&name.to_uppercase()), meaning, "{name}");
        }
    }
    let written_in_two = "расче\u{308}тная длина Lh";
    assert_eq!(read(written_in_two), Meaning::Known(Heading::Cell(11)));
}

#[test]
fn every_name_with_its_unit_and_with_another() {
    for (heading, name) in known() {
        let Heading::Cell(number) = heading else {
            assert_eq!(read(&format!("{name}, mm")), Meaning::Unknown);
            continue;
        };
        let unit = words::cell_words(number).unwrap().unit;
        for text in [
            format!("{name} {unit}"),
            format!("  {name} ,{unit}"),
            format!("{name}({unit})"),
            format!("{name}\n[{unit}]"),
            format!("{}\u{a0}{{{unit}}}", name.to_uppercase()),
        ] {
            assert_eq!(read(&text), Meaning::Known(heading), "{text}");
        }
        if !unit.is_empty() {
            assert_eq!(read(&format!("{name} in {unit}")), Meaning::Known(heading));
        }
        for other in [
            "kN", "кН", "kN·m", "кН*м", "cm", "см", "N/mm²", "МПа", "тс", "mm²",
        ] {
            let text = format!("{name}, {other}");
            assert_eq!(read(&text), Meaning::OtherUnit(number), "{text}");
        }
    }
}

#[test]
fn units_as_people_spell_them() {
    for (text, cell) in [
        ("M N·mm", 9),
        ("M, N*mm", 9),
        ("M Nmm", 9),
        ("M (N mm)", 9),
        ("M, N×mm", 9),
        ("М, Н·мм", 9),
        ("N, Н", 8),
        ("N, H", 8),
        ("moisture %", 4),
        ("moisture, percent", 4),
        ("factor ‰", 5),
        ("factor thousandths", 5),
        ("factor (1/1000)", 5),
        ("kind, –", 1),
        ("r, pcs", 16),
        ("kc, 0.01 N/mm^2", 18),
    ] {
        assert_eq!(read(text), Meaning::Known(Heading::Cell(cell)), "{text}");
    }
    for (text, cell) in [
        ("b m", 6),
        ("b, %", 6),
        ("b in", 6),
        ("b, –", 6),
        ("M, N", 9),
        ("M N·m", 9),
        ("M, N/mm", 9),
        ("N, mm", 8),
        ("factor %", 5),
        ("moisture ‰", 4),
        ("kc, N/mm²", 18),
        ("kc, kN/cm²", 18),
        ("joint length, m", 17),
        ("grade, mm", 2),
    ] {
        assert_eq!(read(text), Meaning::OtherUnit(cell), "{text}");
    }
}

#[test]
fn what_is_not_known() {
    for text in [
        "Breite",
        "remarks",
        "№",
        "()",
        "N+",
        "N*",
        "-N",
        "b'",
        "2b",
        "ΔM",
        "M²",
        "N max",
        "N, 10 kN",
        "force",
        "effective length",
        "длина",
        "толщина",
        "усилие",
        "bh",
        "bmm",
        "N·mm",
        "1",
    ] {
        assert_eq!(read(text), Meaning::Unknown, "{text}");
    }
    for text in ["", " ", "\u{a0}\t", "\u{200b}", "\u{feff}"] {
        assert_eq!(read(text), Meaning::Empty);
    }
    assert_eq!(
        read("wi\u{ad}dth\u{200b}"),
        Meaning::Known(Heading::Cell(6))
    );
    assert_eq!(read(&"b ".repeat(100_000)), Meaning::Unknown);
}
