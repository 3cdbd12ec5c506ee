//! What the program `replay` reads and prints: calls of a kept schedule, and a line for each.
use crate::kept::{Answered, Call, Given};
use crate::kept_governing::Governing;
use crate::kept_rules::KeptRules;
use crate::schedule::verdict_text;
use lvl_addin::answer::Refusal;
use lvl_addin::row::ROW_BYTES;

/// The bytes of a call: one that says what is asked, and a row's.
pub const CALL_BYTES: usize = 1 + ROW_BYTES;

/// The first byte of an add and of a removal.
pub const ADD: u8 = 1;
pub const REMOVE: u8 = 2;

/// The bytes of a call. Those that a removal leaves without meaning are filled all the same, so that who reads them is seen.
pub fn call_bytes(call: &Call) -> [u8; CALL_BYTES] {
    match call {
        Call::Add(row) => {
            let mut bytes = [ADD; CALL_BYTES];
            bytes[1..].copy_from_slice(row);
            bytes
        }
        Call::Remove(number) => {
            let mut bytes = [*number as u8 ^ 0xA5; CALL_BYTES];
            bytes[0] = REMOVE;
            bytes[1..5].copy_from_slice(&number.to_le_bytes());
            bytes
        }
    }
}

/// What a call gave.
pub fn given_text(given: &Result<Given, Refusal>) -> String {
    match given {
        Ok(Given::Added(number)) => format!("added {number}"),
        Ok(Given::Removed) => "removed".to_owned(),
        Err(Refusal { number, cell }) => format!("refused {number} {cell}"),
    }
}

/// What governs.
pub fn governing_text(governing: &Option<Governing>) -> String {
    let Some(Governing { number, verdict }) = governing else {
        return "governing none".to_owned();
    };
    let verdict = verdict_text(verdict);
    format!("governing {number} {verdict}")
}

/// The line of one call.
pub fn answer_line<R: KeptRules>(answered: &Answered) -> String {
    let given = R::given_text(&answered.given);
    let governing = R::governing_text(&answered.governing);
    format!("{given} {governing}\n")
}

/// The whole output for calls from an empty schedule.
pub fn replay<R: KeptRules>(calls: &[Call]) -> String {
    let mut kept = R::empty_schedule();
    let line = |call| R::answer_line(&R::answer_call(&mut kept, call));
    calls.iter().map(line).collect()
}
