//! Units as they stand after a name in a heading.
use crate::columns::Columns;
use std::collections::HashMap;
use std::sync::LazyLock;

/// How the units of `words` are spelt; Cyrillic spellings follow by their letters.
const SPELLINGS: &[(&str, &[&str])] = &[
    ("", &["–", PIECES[0], PIECES[1]]),
    ("%", &["percent", "проц"]),
    (
        "thousandths",
        &["‰", "1/1000", "0.001", "тысячные", "тысячных", "промилле"],
    ),
    ("mm", &[]),
    ("N", &[]),
    ("N·mm", &[]),
    ("N/m", &["N per m", "Н/п.м", "Н/пог.м", "Н/м.п"]),
    (
        "hundredths of N/mm²",
        &[
            "0.01 N/mm²",
            "1/100 N/mm²",
            "сотые Н/мм²",
            "сотых Н/мм²",
            "сотые доли Н/мм²",
        ],
    ),
];

/// What stands for no unit where things are counted.
const PIECES: [&str; 2] = ["pcs", "шт"];

/// Units of forces and moments that no cell has: what is typed in them would be far too small.
#[rustfmt::skip]
const FOREIGN_FORCES: &[&str] = &[
    "kN", "MN", "daN", "kgf", "кгс", "tf", "тс", "kip", "kips", "lbf",
    "N·m", "N·cm", "daN·m", "daN·cm", "kN·m", "kN·cm", "kN·mm", "MN·m", "kgf·m", "кгс·м", "кгс·см", "kg·m", "kg·cm",
    "tf·m", "тс·м", "t·m", "lbf·ft", "ft·lbf", "lb·ft", "ft·lb", "lbf·in", "lb·in", "kip·ft", "kip·in",
];

/// Units of loads on a length that no cell has.
#[rustfmt::skip]
const FOREIGN_LINE_LOADS: &[&str] = &[
    "kN/m", "kN/cm", "kN/mm", "MN/m", "daN/m", "N/cm", "N/mm", "kgf/m", "кгс/м", "kg/m", "tf/m", "тс/м", "t/m",
    "lbf/ft", "kip/ft", "kN per m", "кН/п.м", "кН/пог.м", "кН/м.п", "кгс/п.м", "кгс/пог.м", "кгс/м.п",
    "кг/п.м", "кг/пог.м", "кг/м.п", "тс/п.м", "тс/пог.м", "т/п.м", "т/пог.м",
];

/// What stands before or behind a unit of loads, forces or moments and makes a greater one of it.
const MULTIPLES: &[&str] = &["тыс", "млн", "10³", "10⁶", "x10³", "x10⁶", "х10³", "х10⁶"];

/// The units that have multiples, and what those are.
const HAVE_MULTIPLES: [(&str, Unit); 3] = [
    ("N", Unit::ForeignForce),
    ("N·mm", Unit::ForeignForce),
    ("N/m", Unit::ForeignLineLoad),
];

/// What stands before a length in a unit of moments and may be no unit of forces by itself, in the letters that are usual.
const FORCES_OF_MOMENTS: [&str; 6] = ["N", "Н", "kg", "кг", "t", "т"];

/// Signs of multiplication.
const TIMES: &str = "·*×⋅•∙";

/// Lengths in them would be typed ten times too small, which is within the ranges of spans and effective lengths.
const CENTIMETRES: &[&str] = &["cm"];

/// Units of loads on an area: not yet loads on a beam, and those in kilograms a tenth of them.
#[rustfmt::skip]
const AREA_LOADS: &[&str] = &[
    "Pa", "kPa", "N/m²", "kN/m²", "daN/m²", "kgf/m²", "кгс/м²", "kg/m²", "tf/m²", "тс/м²", "t/m²",
    "кН/кв.м", "кгс/кв.м", "кг/кв.м", "kN/sq.m", "kg/sq.m", "psf",
];

/// Other units that no cell has, and that stand in other tables for the same quantities.
#[rustfmt::skip]
const FOREIGN: &[&str] = &[
    "dm", "m", "km", "in", "ft", "kg", "t", "MPa", "psi", "N/mm²", "N/cm²", "kN/cm²", "kgf/cm²", "кгс/см²",
    "mm²", "cm²", "m²",
];

#[derive(Clone, Copy, Debug, PartialEq, Eq)]
pub enum Unit {
    /// One of `words`.
    Own(&'static str),
    ForeignForce,
    ForeignLineLoad,
    AreaLoad,
    Centimetres,
    Foreign,
}

/// Whether these words are a spelling of the unit.
pub fn is(unit: &str, given: &[String]) -> bool {
    matches!(read(given), Some(Unit::Own(own)) if own == unit)
}

/// Whether these words say that things are counted.
pub fn are_pieces(given: &[String]) -> bool {
    let given = key(without_preposition(given));
    PIECES.iter().any(|pieces| key_of(pieces) == given)
}

/// Whether these words are a unit at all.
pub fn is_any(given: &[String]) -> bool {
    read(given).is_some()
}

/// Whether these words are a unit that no cell of a sheet with these columns has.
pub fn is_foreign(given: &[String], columns: &Columns) -> bool {
    match read(given) {
        Some(Unit::Own(unit)) => !columns.cells().iter().any(|cell| cell.words.unit == unit),
        Some(_) => true,
        None => false,
    }
}

/// Whether one of these words, or two that can only be one unit, are one of these units.
pub fn has_one_of(words: &[String], wanted: &[Unit]) -> bool {
    let is_more = |word: &&String| !is_times(word);
    let words: Vec<String> = words.iter().filter(is_more).cloned().collect();
    // Multiples of a unit, and loads on a running metre, п.м, or on a square one, кв.м.
    let is_one = |pair: &&[String]| pair[0].contains('/') || pair.iter().any(is_multiple);
    let pairs = words.windows(2).filter(is_one);
    let mut read = words.chunks(1).chain(pairs).filter_map(read);
    read.any(|unit| wanted.contains(&unit))
}

/// Words as they were typed, and as one those of a moment's unit that a blank or a full stop parts: t m, кг.м. Initials, as
/// T.M., have another case.
pub fn joined(typed: &[String]) -> Vec<String> {
    let mut joined: Vec<String> = Vec::new();
    for word in typed.iter().filter(|word| !is_times(word)) {
        let is_arm = matches!(word.as_str(), "m" | "м" | "cm" | "см");
        match joined.last_mut() {
            Some(force) if is_arm && FORCES_OF_MOMENTS.contains(&force.as_str()) => {
                force.push_str(word);
            }
            _ => joined.push(word.clone()),
        }
    }
    joined
}

/// Whether these words end in a spelling of the unit.
pub fn end_in(unit: &str, words: &[String]) -> bool {
    (1..words.len()).any(|from| is(unit, &words[from..]))
}

fn read(given: &[String]) -> Option<Unit> {
    static BY_KEY: LazyLock<HashMap<String, Unit>> = LazyLock::new(by_key);
    BY_KEY.get(&key(without_preposition(given))).copied()
}

/// Whether a word is a sign of multiplication and nothing else.
fn is_times(word: &str) -> bool {
    word.chars().all(|letter| TIMES.contains(letter))
}

fn is_multiple(word: &String) -> bool {
    let key = key(std::slice::from_ref(word));
    MULTIPLES.iter().any(|multiple| key_of(multiple) == key)
}

fn by_key() -> HashMap<String, Unit> {
    let own = SPELLINGS.iter().flat_map(|(unit, spellings)| {
        let all = [unit].into_iter().chain(*spellings);
        all.map(|spelling| (*spelling, Unit::Own(unit)))
    });
    let forces = FOREIGN_FORCES
        .iter()
        .map(|unit| (*unit, Unit::ForeignForce));
    let line_loads = FOREIGN_LINE_LOADS
        .iter()
        .map(|unit| (*unit, Unit::ForeignLineLoad));
    let area_loads = AREA_LOADS.iter().map(|unit| (*unit, Unit::AreaLoad));
    let centimetres = CENTIMETRES.iter().map(|unit| (*unit, Unit::Centimetres));
    let others = FOREIGN.iter().map(|unit| (*unit, Unit::Foreign));
    let loads = forces.chain(line_loads).chain(area_loads);
    let all = own.chain(loads).chain(centimetres).chain(others);
    all.map(|(spelling, unit)| (key_of(spelling), unit))
        .chain(multiples())
        .collect()
}

/// The keys of all multiples.
fn multiples() -> impl Iterator<Item = (String, Unit)> {
    let units = HAVE_MULTIPLES.iter().flat_map(|(own, multiple)| {
        let spellings = SPELLINGS.iter().find(|(unit, _)| unit == own);
        let others = spellings.map_or(&[][..], |(_, spellings)| spellings);
        let all = [own].into_iter().chain(others);
        all.map(|spelling| (key_of(spelling), *multiple))
    });
    units.flat_map(|(unit, multiple)| {
        let both_ways = |factor: &&str| {
            let factor = key_of(factor);
            [format!("{factor}{unit}"), format!("{unit}{factor}")]
        };
        let keys = MULTIPLES.iter().flat_map(both_ways);
        keys.map(|key| (key, multiple)).collect::<Vec<_>>()
    })
}

fn key_of(spelling: &str) -> String {
    key(&crate::headings::words_of(spelling))
}

/// "in mm", "в мм"; alone, "in" is an inch.
fn without_preposition(given: &[String]) -> &[String] {
    match given {
        [first, rest @ ..] if !rest.is_empty() && (first == "in" || first == "в") => rest,
        _ => given,
    }
}

/// Without signs of multiplication, dashes and powers, and with Latin letters for the Cyrillic ones of the same sound.
/// The Latin H is taken for the Cyrillic Н that it looks like: no unit here has an H of its own.
fn key(words: &[String]) -> String {
    let latin = |letter| match letter {
        'а' => 'a',
        'г' => 'g',
        'д' => 'd',
        'к' => 'k',
        'м' => 'm',
        'н' | 'h' => 'n',
        'п' => 'p',
        'с' => 'c',
        'т' => 't',
        other => other,
    };
    let counts = |letter: &char| !TIMES.contains(*letter) && !"-–—−^".contains(*letter);
    words.concat().chars().filter(counts).map(latin).collect()
}
