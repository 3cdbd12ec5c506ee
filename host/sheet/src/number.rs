//! A cell as it was typed, and the number that it stands for.

/// What a cell's text is.
#[derive(Clone, Copy, Debug, PartialEq)]
pub enum Typed {
    Blank,
    /// Never a whole float where the text says a fraction, unless it is far too great for a cell.
    Number(f64),
    /// A mark before the last three digits: a thousands mark to some, a decimal mark to others.
    Unclear,
    /// Anything else.
    Text,
}

impl Typed {
    /// The cell that the add-in gets: it refuses a NaN itself.
    pub fn host_cell(self) -> Option<f64> {
        match self {
            Typed::Blank => None,
            Typed::Number(number) => Some(number),
            Typed::Unclear | Typed::Text => Some(f64::NAN),
        }
    }

    /// The whole number that the cell holds, if it does.
    pub fn whole(self) -> Option<u64> {
        match self {
            Typed::Number(number)
                if number >= 0.0 && number < u64::MAX as f64 && number.fract() == 0.0 =>
            {
                Some(number as u64)
            }
            _ => None,
        }
    }
}

/// The marks that may stand before decimals.
#[derive(Clone, Copy, Debug, PartialEq, Eq)]
pub enum DecimalMark {
    Point,
    PointOrComma,
}

/// Reads a cell's text: a sign, digits in a row or in groups of three after spaces, decimals, an exponent.
pub fn read(text: &str, mark: DecimalMark) -> Typed {
    let text = text.trim();
    if text.is_empty() {
        return Typed::Blank;
    }
    let (sign, unsigned) = match text.as_bytes()[0] {
        b'-' => ("-", &text[1..]),
        b'+' => ("", &text[1..]),
        _ => ("", text),
    };
    let (mantissa, exponent) = match unsigned.split_once(['e', 'E']) {
        Some((mantissa, exponent)) => (mantissa, Some(exponent)),
        None => (unsigned, None),
    };
    let (whole, decimals) = split_at_mark(mantissa, mark);
    let Some(digits) = without_grouping(whole) else {
        return Typed::Text;
    };
    if !is_digits(decimals)
        || digits.len() + decimals.len() == 0
        || !exponent.map_or(true, is_exponent)
    {
        return Typed::Text;
    }
    if exponent.is_none() && decimals.len() == 3 {
        return Typed::Unclear;
    }
    let exponent = exponent.unwrap_or("0");
    match format!("{sign}{digits}.{decimals}e{exponent}").parse() {
        Ok(number) if is_whole(&digits, decimals, exponent) => Typed::Number(number),
        Ok(number) => Typed::Number(not_whole(number)),
        Err(_) => Typed::Text,
    }
}

/// Whether the digits say a whole number: a float may be too coarse to tell.
fn is_whole(digits: &str, decimals: &str, exponent: &str) -> bool {
    let last_nonzero = |text: &str| text.bytes().rposition(|byte| byte != b'0');
    // How far the last digit that counts stands behind the decimal mark.
    let behind_mark = match (last_nonzero(decimals), last_nonzero(digits)) {
        (Some(at), _) => at as i64 + 1,
        (None, Some(at)) => at as i64 + 1 - digits.len() as i64,
        (None, None) => return true,
    };
    behind_mark <= shift(exponent)
}

/// By how many places an exponent moves the mark to the right; one beyond any text's length stays so.
fn shift(exponent: &str) -> i64 {
    let beyond = if exponent.starts_with('-') {
        i64::MIN
    } else {
        i64::MAX
    };
    exponent.parse().unwrap_or(beyond)
}

/// The float for a number that is not whole: the nearest one, or its neighbour towards zero where that is whole.
///
/// Where floats have no fractions any more the number is too great for a cell anyhow.
fn not_whole(nearest: f64) -> f64 {
    if nearest.fract() != 0.0 {
        nearest
    } else if nearest == 0.0 {
        f64::from_bits(1).copysign(nearest)
    } else {
        f64::from_bits(nearest.to_bits() - 1)
    }
}

/// What stands before the decimal mark and after it.
fn split_at_mark(mantissa: &str, mark: DecimalMark) -> (&str, &str) {
    let is_mark = |c| c == '.' || (c == ',' && mark == DecimalMark::PointOrComma);
    mantissa.split_once(is_mark).unwrap_or((mantissa, ""))
}

/// The digits of a whole number; none where there is anything else, or spaces that do not part groups of three.
fn without_grouping(whole: &str) -> Option<String> {
    let mut groups = whole.split(char::is_whitespace);
    let first = groups.next().unwrap_or("");
    let mut digits = String::from(first);
    for group in groups {
        if !(1..=3).contains(&first.len()) || group.len() != 3 {
            return None;
        }
        digits.push_str(group);
    }
    is_digits(&digits).then_some(digits)
}

fn is_digits(text: &str) -> bool {
    text.bytes().all(|byte| byte.is_ascii_digit())
}

fn is_exponent(text: &str) -> bool {
    let digits = text.strip_prefix(['-', '+']).unwrap_or(text);
    !digits.is_empty() && is_digits(digits)
}
