//! Text as it is shown on a terminal.
use std::path::Path;

/// The most characters for a column: letters with marks on them take several.
const CHARACTERS_A_COLUMN: usize = 4;

/// A text fit for a part of one line: nothing that a terminal obeys or hides, and cut where it takes more columns.
pub fn shown(text: &str, most: usize) -> String {
    let mut kept = String::new();
    let mut taken = 0;
    for (count, character) in text.trim().chars().map(visible).enumerate() {
        taken += columns(character);
        if taken > most || count == CHARACTERS_A_COLUMN * most {
            return cut(kept, most);
        }
        kept.push(character);
    }
    kept
}

/// The text's beginning, with a sign that more follows.
fn cut(mut text: String, most: usize) -> String {
    while width(&text) >= most && text.pop().is_some() {}
    text.push('…');
    text
}

/// A file's name in a message.
pub fn shown_path(path: &Path) -> String {
    const MOST: usize = 200;
    shown(&path.to_string_lossy(), MOST)
}

/// The character, or one that is seen in its place.
pub fn visible(character: char) -> char {
    match character {
        '\t' | '\n' | '\r' | '\u{85}' | '\u{2028}' | '\u{2029}' => ' ',
        character if is_unseen(character) => char::REPLACEMENT_CHARACTER,
        character => character,
    }
}

/// Controls, characters without width, and those that turn the direction of writing.
pub fn is_unseen(character: char) -> bool {
    character.is_control()
        || matches!(character,
            '\u{ad}' | '\u{34f}' | '\u{600}'..='\u{605}' | '\u{61c}' | '\u{6dd}' | '\u{70f}' | '\u{890}' | '\u{891}' | '\u{8e2}' | '\u{115f}' | '\u{1160}' | '\u{17b4}' | '\u{17b5}'
            | '\u{180b}'..='\u{180f}' | '\u{200b}'..='\u{200f}' | '\u{2028}'..='\u{202e}'
            | '\u{2060}'..='\u{206f}' | '\u{2800}' | '\u{3164}' | '\u{fe00}'..='\u{fe0f}' | '\u{feff}'
            | '\u{ffa0}' | '\u{fff0}'..='\u{fffb}' | '\u{110bd}' | '\u{110cd}' | '\u{13430}'..='\u{1343f}' | '\u{1bca0}'..='\u{1bca3}'
            | '\u{1d173}'..='\u{1d17a}' | '\u{e0000}'..='\u{e0fff}')
}

/// How many columns of a terminal a text takes.
pub fn width(text: &str) -> usize {
    text.chars().map(columns).sum()
}

/// How many columns a character takes: none for a mark on the letter before it, two for what East Asian scripts and
/// pictures take, otherwise one.
fn columns(character: char) -> usize {
    match character {
        '\u{300}'..='\u{36f}'
        | '\u{483}'..='\u{489}'
        | '\u{1ab0}'..='\u{1aff}'
        | '\u{1dc0}'..='\u{1dff}'
        | '\u{20d0}'..='\u{20f0}'
        | '\u{2de0}'..='\u{2dff}'
        | '\u{a66f}'..='\u{a672}'
        | '\u{a674}'..='\u{a67d}'
        | '\u{a69e}'
        | '\u{a69f}'
        | '\u{fe20}'..='\u{fe2f}' => 0,
        '\u{1100}'..='\u{115f}'
        | '\u{2e80}'..='\u{303e}'
        | '\u{3041}'..='\u{a4cf}'
        | '\u{a960}'..='\u{a97c}'
        | '\u{ac00}'..='\u{d7a3}'
        | '\u{f900}'..='\u{faff}'
        | '\u{fe30}'..='\u{fe6f}'
        | '\u{ff01}'..='\u{ff60}'
        | '\u{ffe0}'..='\u{ffe6}'
        | '\u{1f300}'..='\u{1f64f}'
        | '\u{1f680}'..='\u{1f6ff}'
        | '\u{1f900}'..='\u{1f9ff}'
        | '\u{20000}'..='\u{3fffd}' => 2,
        _ => 1,
    }
}
