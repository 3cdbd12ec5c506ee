//! How a sheet's text is written as bytes: UTF-8, UTF-16 or Windows-1251.
//!
//! What stands between reading and writing is UTF-8. Answers go out in the encoding in which the sheet came in.
use crate::windows_1251;
use std::borrow::Cow;

#[derive(Clone, Copy, Debug, PartialEq, Eq)]
pub enum Letters {
    /// Broken sequences among it are kept as they are.
    Utf8,
    /// Two bytes a unit, the lower first.
    Utf16Le,
    /// Two bytes a unit, the higher first.
    Utf16Be,
    Windows1251,
}

#[derive(Clone, Copy, Debug, PartialEq, Eq)]
pub struct Encoding {
    pub letters: Letters,
    /// Whether the text begins with a byte order mark.
    pub marked: bool,
}

/// The marks that tell programs how a text is encoded.
const MARKS: [(Letters, &[u8]); 3] = [
    (Letters::Utf8, b"\xEF\xBB\xBF"),
    (Letters::Utf16Le, b"\xFF\xFE"),
    (Letters::Utf16Be, b"\xFE\xFF"),
];

/// So many bytes tell whether a text without a mark is UTF-16.
const LOOKED_AT: usize = 1 << 16;

impl Encoding {
    /// As the mark says; without one, as the bytes look.
    pub fn of(bytes: &[u8]) -> Encoding {
        let marked = MARKS.iter().find(|(_, mark)| bytes.starts_with(mark));
        match marked {
            Some((letters, _)) => Encoding {
                letters: *letters,
                marked: true,
            },
            None => Encoding {
                letters: unmarked(bytes),
                marked: false,
            },
        }
    }

    /// The mark at the beginning, if there is one.
    pub fn mark(&self) -> &'static [u8] {
        let own = MARKS.iter().find(|(letters, _)| *letters == self.letters);
        own.filter(|_| self.marked).map_or(b"", |(_, mark)| mark)
    }

    /// The text as UTF-8, without the mark.
    pub fn decoded<'a>(&self, bytes: &'a [u8]) -> Cow<'a, [u8]> {
        let bytes = bytes.strip_prefix(self.mark()).unwrap_or(bytes);
        let text = match self.letters {
            Letters::Utf8 => return Cow::Borrowed(bytes),
            Letters::Utf16Le => from_utf16(bytes, u16::from_le_bytes),
            Letters::Utf16Be => from_utf16(bytes, u16::from_be_bytes),
            Letters::Windows1251 => windows_1251::decode(bytes),
        };
        Cow::Owned(text.into_bytes())
    }

    /// UTF-8 in this encoding.
    pub fn encoded<'a>(&self, text: &'a [u8]) -> Cow<'a, [u8]> {
        let letters = || String::from_utf8_lossy(text);
        Cow::Owned(match self.letters {
            Letters::Utf8 => return Cow::Borrowed(text),
            Letters::Utf16Le => to_utf16(&letters(), u16::to_le_bytes),
            Letters::Utf16Be => to_utf16(&letters(), u16::to_be_bytes),
            Letters::Windows1251 => windows_1251::encode(&letters()),
        })
    }

    /// What a person should know where the encoding is a guess.
    pub fn note(&self) -> Option<String> {
        let name = match self.letters {
            Letters::Utf8 => return None,
            Letters::Utf16Le | Letters::Utf16Be => "UTF-16",
            Letters::Windows1251 => "Windows-1251",
        };
        let note = format!("the text is not UTF-8 and is read as {name}");
        (!self.marked).then_some(note)
    }
}

fn unmarked(bytes: &[u8]) -> Letters {
    let first = &bytes[..bytes.len().min(LOOKED_AT)];
    match [0, 1].map(|place| are_high_halves(first, place)) {
        [false, true] => Letters::Utf16Le,
        [true, false] => Letters::Utf16Be,
        _ if is_rather_utf8(bytes) => Letters::Utf8,
        _ => Letters::Windows1251,
    }
}

/// Whether nine in ten of the bytes at even places (0) or at odd ones (1) are the higher halves of Latin or Cyrillic letters.
fn are_high_halves(bytes: &[u8], place: usize) -> bool {
    const LATIN: u8 = 0;
    const CYRILLIC: u8 = 4;
    let halves = bytes.chunks_exact(2).map(|unit| unit[place]);
    let of_either = |half: &u8| matches!(*half, LATIN | CYRILLIC);
    halves.clone().filter(of_either).count() * 10 >= halves.len() * 9
}

/// Whether letters beyond ASCII are sequences of UTF-8 more often than they are broken ones.
///
/// A text that was cut or spoilt in places stays UTF-8. One in Windows-1251 has hardly a letter that happens to look so.
fn is_rather_utf8(bytes: &[u8]) -> bool {
    let mut sequences = 0_usize;
    let mut broken = 0_usize;
    for chunk in bytes.utf8_chunks() {
        let letters = chunk.valid().chars();
        sequences += letters.filter(|letter| !letter.is_ascii()).count();
        broken += usize::from(!chunk.invalid().is_empty());
    }
    broken == 0 || sequences > broken
}

fn from_utf16(bytes: &[u8], unit: fn([u8; 2]) -> u16) -> String {
    let pairs = bytes.chunks_exact(2);
    let half = (!pairs.remainder().is_empty()).then_some(char::REPLACEMENT_CHARACTER);
    let units = pairs.map(|pair| unit([pair[0], pair[1]]));
    char::decode_utf16(units)
        .map(|letter| letter.unwrap_or(char::REPLACEMENT_CHARACTER))
        .chain(half)
        .collect()
}

fn to_utf16(text: &str, bytes: fn(u16) -> [u8; 2]) -> Vec<u8> {
    text.encode_utf16().flat_map(bytes).collect()
}
