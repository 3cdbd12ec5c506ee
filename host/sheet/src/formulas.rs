//! Text that a spreadsheet would take for a formula.
use crate::columns::is_number;
use crate::fields;
use std::borrow::Cow;

/// What a formula begins with, in the width of Latin and of Chinese letters.
const SIGNS: [char; 8] = ['=', '+', '-', '@', '＝', '＋', '－', '＠'];

/// The field, or with an apostrophe before it where a spreadsheet would compute it. Numbers stay as they are.
pub fn kept_as_text<'a>(field: Cow<'a, [u8]>, separator: u8) -> Cow<'a, [u8]> {
    let is_harmless = fields::is_empty(&field) || is_number(&field, separator);
    if is_harmless || !begins_as_formula(&field) {
        return field;
    }
    Cow::Owned([b"'", field.as_ref()].concat())
}

/// Some programs drop spaces and line breaks before they look.
fn begins_as_formula(field: &[u8]) -> bool {
    let text = String::from_utf8_lossy(field);
    text.starts_with(['\t', '\r', '\n']) || text.trim_start().starts_with(SIGNS)
}
