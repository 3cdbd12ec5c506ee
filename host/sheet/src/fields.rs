//! The fields of a line, and a field as it is written.
use std::borrow::Cow;

/// The bytes that may separate fields, the likelier first where a line has as many of one as of another.
pub const SEPARATORS: [u8; 3] = [b'\t', b';', b','];

/// The fields of a line that are still to come.
#[derive(Clone)]
pub struct Fields<'a> {
    rest: Option<&'a [u8]>,
    separator: u8,
}

impl<'a> Fields<'a> {
    pub fn of(line: &'a [u8], separator: u8) -> Fields<'a> {
        Fields {
            rest: Some(line),
            separator,
        }
    }

    pub fn none() -> Fields<'a> {
        Fields {
            rest: None,
            separator: b',',
        }
    }
}

impl<'a> Iterator for Fields<'a> {
    type Item = Cow<'a, [u8]>;

    /// A quote that is not closed, or is followed by more text, is a letter like any other, and swallows no separator.
    fn next(&mut self) -> Option<Cow<'a, [u8]>> {
        let rest = self.rest?;
        if let Some((content, after)) = rest.strip_prefix(b"\"").and_then(unquoted) {
            let (tail, further) = self.cut(after);
            if is_empty(tail) {
                self.rest = further;
                return Some(Cow::Owned(content));
            }
        }
        let (field, further) = self.cut(rest);
        self.rest = further;
        Some(Cow::Borrowed(field))
    }
}

impl<'a> Fields<'a> {
    /// What stands before the next separator and what after it, if there is one.
    fn cut(&self, text: &'a [u8]) -> (&'a [u8], Option<&'a [u8]>) {
        match text.iter().position(|&byte| byte == self.separator) {
            Some(at) => (&text[..at], Some(&text[at + 1..])),
            None => (text, None),
        }
    }
}

/// The content up to the closing quote, doubled quotes taken for one, and what follows, if there is a closing quote.
fn unquoted(inside: &[u8]) -> Option<(Vec<u8>, &[u8])> {
    let mut content = Vec::new();
    let mut rest = inside;
    loop {
        let at = rest.iter().position(|&byte| byte == b'"')?;
        content.extend_from_slice(&rest[..at]);
        rest = &rest[at + 1..];
        match rest.strip_prefix(b"\"") {
            Some(after) => {
                content.push(b'"');
                rest = after;
            }
            None => return Some((content, rest)),
        }
    }
}

/// Whether a field begins with a quote that is not closed, so that it may have been meant to go on.
///
/// Written as a field of its own, it is still seen to be one.
pub fn is_open(field: &[u8]) -> bool {
    let quotes = field.iter().filter(|byte| **byte == b'"').count();
    field.starts_with(b"\"") && quotes % 2 == 1
}

/// Whether a field has no content.
pub fn is_empty(field: &[u8]) -> bool {
    field.iter().all(u8::is_ascii_whitespace)
}

/// Whether a line has no content: empty, or separators and empty quotes, as spreadsheets save an empty row.
pub fn is_blank(line: &[u8]) -> bool {
    line.iter()
        .all(|byte| byte.is_ascii_whitespace() || *byte == b'"' || SEPARATORS.contains(byte))
}

/// Appends a field, in quotes where its content asks for them.
pub fn append(line: &mut Vec<u8>, field: &[u8], separator: u8) {
    let special = |byte: &u8| *byte == separator || matches!(byte, b'"' | b'\r' | b'\n');
    if !field.iter().any(special) {
        return line.extend_from_slice(field);
    }
    line.push(b'"');
    for (i, part) in field.split(|&byte| byte == b'"').enumerate() {
        if i > 0 {
            line.extend_from_slice(b"\"\"");
        }
        line.extend_from_slice(part);
    }
    line.push(b'"');
}
