//! What the program `schedule` prints.
use crate::rules::Rules;
use lvl_addin::answer::{Refusal, Verdict};

/// The bytes of the input that are looked at.
pub const INPUT_BYTES: usize = 65_536;

/// The verdict on the row at the front of the input, and the input after it. Where a row does not unpack, nothing
/// after it can be a row.
pub fn next_row<R: Rules>(input: &[u8]) -> (Result<Verdict, Refusal>, &[u8]) {
    match R::unpack(input) {
        Ok((cells, length)) => (R::check_row(&cells), &input[length..]),
        Err(refusal) => (Err(refusal), &[]),
    }
}

/// The part of a line that tells a verdict.
pub fn verdict_text(verdict: &Verdict) -> String {
    let word = if verdict.passes { "pass" } else { "fail" };
    let Verdict {
        check,
        utilisation,
        count,
        ..
    } = verdict;
    format!("{word} {check} {utilisation} {count}")
}

/// The line of one row.
pub fn line(number: usize, judged: Result<Verdict, Refusal>) -> String {
    match judged {
        Ok(verdict) => {
            let verdict = verdict_text(&verdict);
            format!("{number} {verdict}\n")
        }
        Err(Refusal { number: why, cell }) => format!("{number} refused {why} {cell}\n"),
    }
}

/// The whole output for an input.
pub fn schedule<R: Rules>(input: &[u8]) -> String {
    let mut rest = &input[..input.len().min(R::input_limit())];
    let mut number = R::first_number();
    let mut text = String::new();
    while !rest.is_empty() {
        let (judged, after) = R::next_row(rest);
        text.push_str(&R::line(number, judged));
        number += 1;
        rest = after;
    }
    text
}
