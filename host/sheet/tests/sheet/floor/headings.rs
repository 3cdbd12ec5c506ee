//! What a heading names in a sheet of floor beams.
use super::{example, HEADER};
use lvl_sheet::floor_beams;
use lvl_sheet::headings::{key, known_in, read_in, Heading, Meaning};
use std::collections::HashMap;

/// What the usual terms name, a few for each cell.
#[rustfmt::skip]
const TERMS: [&[&str]; 8] = [
    &["Permanent and long-term load, N/m", "permanent + long-term load [N/m]", "Постоянная и длительная нагрузка, Н/м",
      "постоянные и длительные нагрузки (Н/п.м)", "Постоянная и временная длительная, Н/пог.м"],
    &["Remaining load", "Remaining load, N / m", "short-term load N/m", "Кратковременная (остальная) нагрузка, Н/м",
      "кратковременные нагрузки", "Остальная нагрузка, Н/м."],
    &["Span", "span L, mm", "L, mm", "l", "Пролёт", "Пролет, мм", "Расчётный пролёт L, мм"],
    &["Grade", "класс прочности"],
    &["Moisture, %", "Влажность, %"],
    &["Factor ‰", "Коэффициент"],
    &["b", "Ширина b, мм"],
    &["h", "Высота h, мм"],
];

/// Units of loads, forces, areas and lengths that no cell of a floor beam has.
#[rustfmt::skip]
const OTHER_UNITS: [&str; 16] = [
    "kN/m", "кН/м", "кН/п.м", "kgf/m", "кгс/м", "кг/м", "тыс. Н/м", "N/mm", "kN", "N", "kN/m²", "кгс/м²", "Па", "m", "м", "cm",
];

/// Parts of a load, which may be less than is meant, and what only members have.
#[rustfmt::skip]
const UNKNOWN: [&str; 32] = [
    "permanent load", "permanent", "long-term load", "dead load", "live load", "imposed load", "load", "loads",
    "постоянная нагрузка", "длительная нагрузка", "временная нагрузка", "полезная нагрузка", "нагрузка",
    "q", "g", "p", "total load", "clear span", "length", "длина", "пролёт в свету",
    "kind", "M", "Q", "N", "moment", "shear force", "Lh", "a", "d", "count", "joint length",
];

fn read(text: &str) -> Meaning {
    read_in(floor_beams::schema(), text)
}

#[test]
fn no_name_names_two_things() {
    let mut by_key = HashMap::new();
    for (heading, name) in known_in(floor_beams::schema()) {
        let earlier = by_key.insert(key(&name), heading);
        assert!(earlier.map_or(true, |earlier| earlier == heading), "{name}");
        assert_eq!(read(&name), Meaning::Known(heading), "{name}");
    }
}

#[test]
fn the_terms_in_english_and_russian() {
    for name in ["Beam", "балка", "Балка перекрытия", "name", "Марка"] {
        assert_eq!(read(name), Meaning::Known(Heading::Member), "{name}");
    }
    for (place, names) in (1..).zip(TERMS) {
        for name in names {
            let meaning = Meaning::Known(Heading::Cell(place));
            assert_eq!(read(name), meaning, "{name}");
            assert_eq!(read(&name.to_uppercase()), meaning, "{name}");
        }
    }
    let example = example();
    for header in [HEADER, example.lines().next().unwrap()] {
        let meanings: Vec<Meaning> = header.split(',').map(read).collect();
        let cells = (1..=8).map(Heading::Cell);
        let expected = [Heading::Member].into_iter().chain(cells);
        assert_eq!(meanings, expected.map(Meaning::Known).collect::<Vec<_>>());
    }
}

#[test]
fn every_name_with_its_unit_and_with_another() {
    let schema = floor_beams::schema();
    for (heading, name) in known_in(schema) {
        let Heading::Cell(place) = heading else {
            continue;
        };
        let unit = schema.cell(place).words.unit;
        for text in [format!("{name}, {unit}"), format!("{name}({unit})")] {
            assert_eq!(read(&text), Meaning::Known(heading), "{text}");
        }
        for other in OTHER_UNITS {
            let text = format!("{name}, {other}");
            assert_eq!(read(&text), Meaning::OtherUnit(place), "{text}");
        }
    }
}

#[test]
fn what_is_not_known() {
    for text in UNKNOWN {
        assert_eq!(read(text), Meaning::Unknown, "{text}");
    }
}
