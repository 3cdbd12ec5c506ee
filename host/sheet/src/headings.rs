//! What a column's heading names.
//!
//! A heading is a name, or a name and the unit of what it names. Case, spaces and brackets do not count, and letters
//! that look alike in the Cyrillic and the Latin alphabet are one: nobody sees in which of them М, а or кс was typed.
//! Every other sign counts: N+, N* or 2b are not N or b. In one place case and alphabet count too: n is no N where N would be a
//! force, and no h that stands for a Cyrillic н.
use crate::schema::Schema;
use crate::text::is_unseen;
use crate::{members, units};

#[derive(Clone, Copy, Debug, PartialEq, Eq, Hash)]
pub enum Heading {
    /// The name of a member or beam.
    Member,
    /// A cell by its place, from 1: a member's has this number.
    Cell(usize),
    /// One of the answers of an earlier run, from 0.
    Answer(usize),
}

/// What a heading's text is.
#[derive(Clone, Copy, Debug, PartialEq, Eq)]
pub enum Meaning {
    Empty,
    Known(Heading),
    /// A known name of this cell with a unit that the cell does not have.
    OtherUnit(usize),
    Unknown,
}

/// No heading has more words than this.
const MOST_WORDS: usize = 16;

/// All names that are known in a sheet of members, with what they name.
pub fn known() -> impl Iterator<Item = (Heading, String)> {
    known_in(members::schema())
}

/// All names that are known in such a sheet, with what they name.
pub fn known_in(schema: &Schema) -> impl Iterator<Item = (Heading, String)> + '_ {
    let names = schema
        .names
        .iter()
        .map(|name| (Heading::Member, name.to_string()));
    let cells = (1..).zip(&schema.cells).flat_map(|(place, cell)| {
        let names = cell.names.all().into_iter();
        names.map(move |name| (Heading::Cell(place), name))
    });
    let answers = (0..)
        .zip(&schema.answers)
        .map(|(number, answer)| (Heading::Answer(number), answer.heading.to_owned()));
    names.chain(cells).chain(answers)
}

/// What a heading's text is in a sheet of members.
pub fn read(text: &str) -> Meaning {
    read_in(members::schema(), text)
}

/// What a heading's text is in such a sheet.
pub fn read_in(schema: &Schema, text: &str) -> Meaning {
    let typed = typed_words(text);
    if text
        .chars()
        .all(|letter| letter.is_whitespace() || is_without_width(letter))
    {
        return Meaning::Empty;
    }
    if typed.len() > MOST_WORDS {
        return Meaning::Unknown;
    }
    let words = small(&typed);
    (1..=words.len())
        .rev()
        .find_map(|at| named(schema, &typed[..at], &words[..at], &words[at..]))
        .unwrap_or(Meaning::Unknown)
}

/// Headings with the same key are the same heading.
pub fn key(text: &str) -> String {
    name_key(&words_of(text))
}

/// What a name, as it was typed and in small letters, and the unit after it mean, if they mean anything.
fn named(schema: &Schema, typed: &[String], name: &[String], unit: &[String]) -> Option<Meaning> {
    let heading = schema.heading(&name_key(name))?;
    let Heading::Cell(place) = heading else {
        return unit.is_empty().then_some(Meaning::Known(heading));
    };
    let cell = schema.cell(place);
    if cell.names.has_small_n && (speaks_of_force(typed) || ends_in_h(typed)) {
        return None;
    }
    if cell.names.is_ratio && units::are_pieces(unit) {
        return None;
    }
    if unit.is_empty() || units::is(cell.words.unit, unit) {
        return Some(Meaning::Known(heading));
    }
    units::is_any(unit).then_some(Meaning::OtherUnit(place))
}

/// Whether a capital N in a name, as it was typed, is a force, at its beginning, or a unit, behind an M or with one.
fn speaks_of_force(name: &[String]) -> bool {
    let is_m = |word: &str| matches!(word, "M" | "m" | "М" | "м");
    (0..).zip(name).any(|(place, word)| match word.as_str() {
        "N" if place == 0 => true,
        "N" | "Н" => place > 0 && is_m(&name[place - 1]),
        "MN" | "MН" | "МN" | "МН" => place > 0,
        _ => false,
    })
}

/// Whether a name, as it was typed, ends in a Latin h: "across h", where a Cyrillic н stands for the n.
fn ends_in_h(name: &[String]) -> bool {
    let last = name.last();
    last.is_some_and(|word| word.ends_with(['h', 'H']))
}

/// A heading's words in small letters, without what only parts them, and without the apostrophe that keeps a formula text.
pub fn words_of(text: &str) -> Vec<String> {
    small(&typed_words(text))
}

/// The same in the letters that were typed.
pub fn typed_words(text: &str) -> Vec<String> {
    let text = text.strip_prefix('\'').unwrap_or(text);
    let mut words = vec![String::new()];
    for letter in text.chars() {
        match letter {
            letter if is_mark(letter) => {}
            '%' | '‰' => words.extend([letter.to_string(), String::new()]),
            letter if parts_words(letter) => words.push(String::new()),
            letter if is_without_width(letter) => {}
            letter => words.last_mut().expect("one at least").push(letter),
        }
    }
    words.retain(|word| !word.is_empty());
    words
}

/// Words in small and plain letters.
pub fn small(words: &[String]) -> Vec<String> {
    let small = |word: &String| {
        let letters = word.chars().flat_map(char::to_lowercase);
        letters
            .filter(|letter| !is_mark(*letter))
            .map(plain)
            .collect()
    };
    words.iter().map(small).collect()
}

/// The second half of a letter that is written in two: й, ё.
fn is_mark(letter: char) -> bool {
    matches!(letter, '\u{300}'..='\u{36f}')
}

/// A soft hyphen, a space of no width, a byte order mark.
fn is_without_width(letter: char) -> bool {
    is_unseen(letter) && !letter.is_control()
}

fn parts_words(letter: char) -> bool {
    letter.is_whitespace() || ",;:._()[]{}<>\"«»".contains(letter)
}

fn plain(letter: char) -> char {
    match letter {
        'ё' => 'е',
        'й' => 'и',
        // What Word makes of a hyphen.
        '\u{2010}'..='\u{2015}' | '−' => '-',
        '²' => '2',
        '³' => '3',
        '⁶' => '6',
        other => other,
    }
}

/// Cyrillic letters for the Latin ones that look like them, capital or small.
fn name_key(words: &[String]) -> String {
    let latin = |letter| match letter {
        'а' => 'a',
        'в' => 'b',
        'с' => 'c',
        'е' => 'e',
        'н' => 'h',
        'к' => 'k',
        'м' => 'm',
        'о' => 'o',
        'р' => 'p',
        'т' => 't',
        'у' => 'y',
        'х' => 'x',
        other => other,
    };
    words.concat().chars().map(latin).collect()
}
