//! One for each float of a sag's answer, and each two of them.
use super::{keep_all_but_the_sags, slip, SLIP};
use crate::answers;
use crate::evidence::{EveryRule, Sagging, Wrong};
use lvl_addin::sag::{SagVerdict, SAG_ANSWER_BYTES};
use lvl_second::{Paper, SagRules};

/// How many floats an answer has.
const FLOATS: u64 = SAG_ANSWER_BYTES as u64 / 8;

/// Two floats of the answer in each other's places.
struct FloatsExchanged;
impl SagRules for FloatsExchanged {
    fn sag_answer_bytes(verdict: &SagVerdict) -> [u8; SAG_ANSWER_BYTES] {
        let (one, other, _) = SLIP.get();
        let answer = Paper::sag_answer_bytes(verdict);
        answers::exchanged(answer, one as usize, other as usize)
    }
}

/// The right answer with the bytes of one float changed.
fn float_changed(verdict: &SagVerdict, change: impl Fn(&mut [u8], f64)) -> [u8; SAG_ANSWER_BYTES] {
    let mut answer = Paper::sag_answer_bytes(verdict);
    let at = 8 * SLIP.get().0 as usize;
    let bytes = &mut answer[at..at + 8];
    let float = f64::from_le_bytes(bytes.try_into().expect("eight bytes"));
    change(bytes, float);
    answer
}

/// One float of the answer moved, where the verdict is right.
struct FloatMoved;
impl SagRules for FloatMoved {
    fn sag_answer_bytes(verdict: &SagVerdict) -> [u8; SAG_ANSWER_BYTES] {
        let by = SLIP.get().2 as f64;
        float_changed(verdict, |bytes, float| {
            bytes.copy_from_slice(&(float + by).to_le_bytes());
        })
    }
}

/// One float of the answer that is left 0.
struct FloatLeftOut;
impl SagRules for FloatLeftOut {
    fn sag_answer_bytes(verdict: &SagVerdict) -> [u8; SAG_ANSWER_BYTES] {
        float_changed(verdict, |bytes, _| bytes.fill(0))
    }
}

/// One float of the answer as a whole number.
struct FloatAsWholeNumber;
impl SagRules for FloatAsWholeNumber {
    fn sag_answer_bytes(verdict: &SagVerdict) -> [u8; SAG_ANSWER_BYTES] {
        float_changed(verdict, |bytes, float| {
            bytes.copy_from_slice(&(float as u64).to_le_bytes());
        })
    }
}

/// One float of the answer with its highest byte first.
struct FloatHighestByteFirst;
impl SagRules for FloatHighestByteFirst {
    fn sag_answer_bytes(verdict: &SagVerdict) -> [u8; SAG_ANSWER_BYTES] {
        float_changed(verdict, |bytes, _| bytes.reverse())
    }
}

/// One float of the answer below zero.
struct FloatNegative;
impl SagRules for FloatNegative {
    fn sag_answer_bytes(verdict: &SagVerdict) -> [u8; SAG_ANSWER_BYTES] {
        float_changed(verdict, |bytes, _| bytes[7] ^= 0x80)
    }
}

keep_all_but_the_sags!(
    FloatsExchanged,
    FloatMoved,
    FloatLeftOut,
    FloatAsWholeNumber,
    FloatHighestByteFirst,
    FloatNegative,
);

fn own<R: EveryRule>(name: String, at: u64, and: u64, by: i64) -> Wrong {
    slip::<Sagging, R>(name, at, and, by)
}

pub fn copies() -> Vec<Wrong> {
    let mut copies = Vec::new();
    for at in 0..FLOATS {
        for other in at + 1..FLOATS {
            let name = format!("floats {at} and {other} exchanged");
            copies.push(own::<FloatsExchanged>(name, at, other, 0));
        }
        for by in [-1, 1] {
            let name = format!("float {at} moved by {by}");
            copies.push(own::<FloatMoved>(name, at, 0, by));
        }
        let name = |how| format!("float {at} {how}");
        copies.push(own::<FloatLeftOut>(name("left out"), at, 0, 0));
        copies.push(own::<FloatAsWholeNumber>(
            name("as a whole number"),
            at,
            0,
            0,
        ));
        copies.push(own::<FloatHighestByteFirst>(
            name("highest byte first"),
            at,
            0,
            0,
        ));
        copies.push(own::<FloatNegative>(name("below zero"), at, 0, 0));
    }
    copies
}
