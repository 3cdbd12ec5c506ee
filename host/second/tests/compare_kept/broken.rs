//! Inputs without calls, in slow pieces, cut within a call, or with a first byte that asks for nothing.
use crate::program::{ended, ended_in_pieces, Ended};
use lvl_second::calls::{stored, Lists};
use lvl_second::replay::{call_bytes, ADD, CALL_BYTES, REMOVE};
use lvl_second::{Call, KeptRules, Paper};
use std::time::Duration;

fn bytes_of(calls: &[Call]) -> Vec<u8> {
    calls.iter().flat_map(call_bytes).collect()
}

/// Some calls, among which every sort of answer is.
fn some_calls() -> Vec<Call> {
    stored::calls()
}

/// Holds a run to print the lines of these calls and to go well.
fn assert_well(run: &Ended, calls: &[Call]) {
    assert_eq!(run.printed, Paper::replay(calls));
    assert_eq!(run.said, "");
    assert!(run.status.success(), "{}", run.status);
}

/// Holds a run to print the lines of these calls and then to say that the input is none, and to end so. A signal would be
/// no such end.
fn assert_refused(run: &Ended, calls: &[Call], what: &str) {
    assert_eq!(run.printed, Paper::replay(calls), "{what}");
    assert!(!run.said.is_empty(), "{what}: nothing is said");
    let code = run.status.code();
    assert!(code.is_some_and(|code| code != 0), "{what}: {}", run.status);
}

#[test]
fn nothing_prints_nothing() {
    assert_well(&ended(&[]), &[]);
}

#[test]
fn one_call_prints_its_line() {
    for call in some_calls() {
        assert_well(&ended(&call_bytes(&call)), &[call]);
    }
}

#[test]
fn an_input_in_slow_pieces_prints_the_same() {
    let calls = some_calls();
    let input = bytes_of(&calls);
    for (length, milliseconds) in [(7, 0), (100, 1), (CALL_BYTES, 1), (CALL_BYTES + 1, 1)] {
        let run = ended_in_pieces(&input, length, Duration::from_millis(milliseconds));
        assert_well(&run, &calls);
    }
    let run = ended_in_pieces(&input[..2 * CALL_BYTES], 1, Duration::from_millis(1));
    assert_well(&run, &calls[..2]);
}

/// After no call, some and many: the lines of many are more than a pipe holds.
fn calls_before() -> [Vec<Call>; 4] {
    let many: Vec<Call> = Lists::new().take(8).flatten().collect();
    let some = some_calls();
    [vec![], some[..1].to_vec(), some, many]
}

#[test]
fn an_input_that_ends_within_a_call_is_told() {
    for calls in calls_before() {
        let whole = bytes_of(&calls);
        for call in [some_calls()[0], some_calls()[1]] {
            for length in [1, 2, 4, 5, 6, 100, CALL_BYTES - 2, CALL_BYTES - 1] {
                let input = [&whole[..], &call_bytes(&call)[..length]].concat();
                let what = format!("{} calls and {length} bytes", calls.len());
                assert_refused(&ended(&input), &calls, &what);
            }
        }
    }
}

/// A call with another first byte.
fn asking(first: u8) -> [u8; CALL_BYTES] {
    let mut bytes = call_bytes(&some_calls()[1]);
    bytes[0] = first;
    bytes
}

/// Other first bytes than those of an add and of a removal.
fn others() -> impl Iterator<Item = u8> {
    (0..=u8::MAX).filter(|&first| first != ADD && first != REMOVE)
}

#[test]
fn a_first_byte_that_asks_for_nothing_is_told() {
    for first in others() {
        let what = format!("first byte {first}");
        assert_refused(&ended(&asking(first)), &[], &what);
    }
}

/// What comes after it is not looked at, be it whole or cut.
#[test]
fn the_calls_before_such_a_byte_have_their_lines() {
    for calls in calls_before() {
        for first in [0, 3, 255] {
            for after in [0, 1, CALL_BYTES] {
                let rest = &call_bytes(&some_calls()[1])[..after];
                let input = [&bytes_of(&calls)[..], &asking(first), rest].concat();
                let what = format!("{} calls, byte {first}, {after} bytes", calls.len());
                assert_refused(&ended(&input), &calls, &what);
            }
        }
    }
}

/// Cut within a call that asks for nothing.
#[test]
fn such_a_byte_in_a_cut_call_is_told() {
    let calls = some_calls();
    for length in [1, 5, CALL_BYTES - 1] {
        let input = [&bytes_of(&calls)[..], &asking(3)[..length]].concat();
        assert_refused(&ended(&input), &calls, "byte 3, cut");
    }
}
