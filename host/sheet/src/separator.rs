//! What separates the fields of a sheet.
use crate::fields::SEPARATORS;

/// The separator that a line has most of, outside quotes; a comma where it has none.
pub fn most_frequent(line: &[u8]) -> u8 {
    let mut counts = [0_usize; SEPARATORS.len()];
    let mut quoted = false;
    for byte in line {
        if *byte == b'"' {
            quoted = !quoted;
        } else if let Some(i) = SEPARATORS
            .iter()
            .position(|separator| separator == byte && !quoted)
        {
            counts[i] += 1;
        }
    }
    let most = counts.into_iter().max().unwrap_or(0);
    match counts.iter().position(|&count| count == most && most > 0) {
        Some(i) => SEPARATORS[i],
        None => b',',
    }
}

/// The separator that a line `sep=;` sets, as Excel reads it; an error where it sets another one than those known.
pub fn hint(line: &[u8]) -> Option<Result<u8, String>> {
    let text = line.trim_ascii_start();
    let text = text.strip_prefix(b"\"").unwrap_or(text);
    let (name, set) = text.split_at_checked(b"sep=".len())?;
    if !name.eq_ignore_ascii_case(b"sep=") {
        return None;
    }
    // A program that does not know the hint may have saved it as a field, quoted and with separators after it.
    let is_filling = |byte: &u8| *byte == b'"' || *byte == b' ' || SEPARATORS.contains(byte);
    Some(match set.split_first() {
        Some((separator, rest))
            if SEPARATORS.contains(separator) && rest.iter().all(is_filling) =>
        {
            Ok(*separator)
        }
        _ => Err("sep= has to set a comma, a semicolon or a tab".to_owned()),
    })
}
