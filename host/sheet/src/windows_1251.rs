//! Windows-1251, in which Excel in Russian saves its plain CSV: a byte for each letter.

/// The letters of bytes 0x80 to 0xBF. 0x98 stands for none: it becomes the control character of the same number.
#[rustfmt::skip]
const UPPER: [char; 0x40] = [
    'Ђ', 'Ѓ', '‚', 'ѓ', '„', '…', '†', '‡', '€', '‰', 'Љ', '‹', 'Њ', 'Ќ', 'Ћ', 'Џ',
    'ђ', '‘', '’', '“', '”', '•', '–', '—', '\u{98}', '™', 'љ', '›', 'њ', 'ќ', 'ћ', 'џ',
    '\u{a0}', 'Ў', 'ў', 'Ј', '¤', 'Ґ', '¦', '§', 'Ё', '©', 'Є', '«', '¬', '\u{ad}', '®', 'Ї',
    '°', '±', 'І', 'і', 'ґ', 'µ', '¶', '·', 'ё', '№', 'є', '»', 'ј', 'Ѕ', 'ѕ', 'ї',
];

/// The alphabet from А to я follows at 0xC0, in the order of Unicode.
const ALPHABET: u8 = 0xC0;
const FIRST_OF_ALPHABET: u32 = 'А' as u32;

pub fn decode(bytes: &[u8]) -> String {
    bytes.iter().map(|byte| letter(*byte)).collect()
}

/// What was decoded gives its bytes back; a letter that is not of this encoding becomes a question mark.
pub fn encode(text: &str) -> Vec<u8> {
    text.chars().map(byte).collect()
}

fn letter(byte: u8) -> char {
    match byte {
        0..=0x7F => char::from(byte),
        0x80..=0xBF => UPPER[usize::from(byte - 0x80)],
        ALPHABET.. => char::from_u32(FIRST_OF_ALPHABET + u32::from(byte - ALPHABET))
            .expect("the alphabet has no gap"),
    }
}

fn byte(letter: char) -> u8 {
    match letter {
        '\0'..='\x7F' => letter as u8,
        'А'..='я' => ALPHABET + (letter as u32 - FIRST_OF_ALPHABET) as u8,
        _ => match UPPER.iter().position(|upper| *upper == letter) {
            Some(place) => 0x80 + place as u8,
            None => b'?',
        },
    }
}
