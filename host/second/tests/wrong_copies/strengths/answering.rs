//! Wrong copies of the answer's bytes, of its length and of the returned number.
use crate::answers;
use lvl_addin::answer::Refusal;
use lvl_addin::row::ANSWER_BYTES;
use lvl_addin::strengths::STRENGTHS_BYTES;
use lvl_second::exact_strength::NUMBERS;
use lvl_second::{Paper, Rules, StrengthRules};

/// The answer of other floats, each made of a strength and its remainder.
fn floats_of(
    numbers: &[u64; NUMBERS],
    floats: impl Fn(f64, f64) -> [f64; 2],
) -> [u8; STRENGTHS_BYTES] {
    let mut answer = Paper::strengths_answer_bytes(numbers);
    for (at, pair) in (0..).step_by(2).zip(numbers.chunks_exact(2)) {
        let [first, second] = floats(pair[0] as f64, pair[1] as f64);
        answer = answers::with_float(answer, at, first);
        answer = answers::with_float(answer, at + 1, second);
    }
    answer
}

/// The right answer, with the bytes of every float changed.
fn bytes_changed(
    numbers: &[u64; NUMBERS],
    change: impl Fn(usize, &mut [u8]),
) -> [u8; STRENGTHS_BYTES] {
    let mut answer = Paper::strengths_answer_bytes(numbers);
    for (at, float) in answer.chunks_exact_mut(8).enumerate() {
        change(at, float);
    }
    answer
}

/// The entry where other answer lengths are taken as well.
fn in_part(row: &[u8], answer: &mut [u8], taken: impl Fn(usize) -> bool) -> u64 {
    answers::in_part::<_, STRENGTHS_BYTES>(Paper::strengths_bytes, row, answer, taken)
}

/// The entry where the answer's length is refused before all that a rule does not refuse.
fn fits_before<T>(
    row: &[u8],
    answer: &mut [u8],
    rule: impl Fn(&[u8]) -> Result<T, Refusal>,
) -> u64 {
    answers::fits_before(
        Paper::strengths_bytes,
        row,
        answer,
        Paper::strengths_answer_fits,
        rule,
    )
}

/// The entry with another number in place of one that it returns.
fn recoded(row: &[u8], answer: &mut [u8], right: u64, wrong: u64) -> u64 {
    match Paper::strengths_bytes(row, answer) {
        code if code == right => wrong,
        code => code,
    }
}

/// What the check returns for a row.
fn checked(row: &[u8]) -> u64 {
    Paper::check_bytes(row, &mut [0; ANSWER_BYTES])
}

wrong_copies! { StrengthRules, GivingStrengths:
    StrengthsUnrounded {
        fn strengths_answer_bytes(numbers: &[u64; NUMBERS]) -> [u8; STRENGTHS_BYTES] {
            floats_of(numbers, |strength, remainder| [strength + remainder / 1e7, remainder])
        }
    }
    RemaindersAsFractions {
        fn strengths_answer_bytes(numbers: &[u64; NUMBERS]) -> [u8; STRENGTHS_BYTES] {
            floats_of(numbers, |strength, remainder| [strength, remainder / 1e7])
        }
    }
    StrengthsInMegapascals {
        fn strengths_answer_bytes(numbers: &[u64; NUMBERS]) -> [u8; STRENGTHS_BYTES] {
            floats_of(numbers, |strength, remainder| [strength / 1000.0, remainder])
        }
    }
    /// Rounds up, and what is left is below zero.
    UpWithNegativeRemainders {
        fn strengths_answer_bytes(numbers: &[u64; NUMBERS]) -> [u8; STRENGTHS_BYTES] {
            floats_of(numbers, |strength, remainder| {
                if remainder > 0.0 { [strength + 1.0, remainder - 1e7] } else { [strength, remainder] }
            })
        }
    }
    NegativeRemainders {
        fn strengths_answer_bytes(numbers: &[u64; NUMBERS]) -> [u8; STRENGTHS_BYTES] {
            floats_of(numbers, |strength, remainder| [strength, 0.0 - remainder])
        }
    }
    NothingAsNegativeZero {
        fn strengths_answer_bytes(numbers: &[u64; NUMBERS]) -> [u8; STRENGTHS_BYTES] {
            floats_of(numbers, |strength, remainder| [strength, if remainder == 0.0 { -0.0 } else { remainder }])
        }
    }
    StrengthsByWayOfFloatsOf16Bits {
        fn strengths_answer_bytes(numbers: &[u64; NUMBERS]) -> [u8; STRENGTHS_BYTES] {
            floats_of(numbers, |strength, remainder| [(strength / 32.0).round() * 32.0, remainder])
        }
    }
    RemaindersHighestByteFirst {
        fn strengths_answer_bytes(numbers: &[u64; NUMBERS]) -> [u8; STRENGTHS_BYTES] {
            bytes_changed(numbers, |at, float| if at % 2 == 1 { float.reverse() })
        }
    }
    RemaindersAsWholeNumbers {
        fn strengths_answer_bytes(numbers: &[u64; NUMBERS]) -> [u8; STRENGTHS_BYTES] {
            bytes_changed(numbers, |at, float| {
                if at % 2 == 1 {
                    float.copy_from_slice(&numbers[at].to_le_bytes());
                }
            })
        }
    }
    FloatsOfFourBytes {
        fn strengths_answer_bytes(numbers: &[u64; NUMBERS]) -> [u8; STRENGTHS_BYTES] {
            bytes_changed(numbers, |at, float| {
                float.fill(0);
                float[..4].copy_from_slice(&(numbers[at] as f32).to_le_bytes());
            })
        }
    }
    AnswerOfTheCheckAccepted {
        fn strengths_bytes(row: &[u8], answer: &mut [u8]) -> u64 {
            in_part(row, answer, |length| length == ANSWER_BYTES)
        }
    }
    AnswerOf32Accepted {
        fn strengths_bytes(row: &[u8], answer: &mut [u8]) -> u64 {
            in_part(row, answer, |length| length == 32)
        }
    }
    AnswerOf56Accepted {
        fn strengths_bytes(row: &[u8], answer: &mut [u8]) -> u64 {
            in_part(row, answer, |length| length == 56)
        }
    }
    AnswerOneShortAccepted {
        fn strengths_bytes(row: &[u8], answer: &mut [u8]) -> u64 {
            in_part(row, answer, |length| length == STRENGTHS_BYTES - 1)
        }
    }
    NoAnswerAccepted {
        fn strengths_bytes(row: &[u8], answer: &mut [u8]) -> u64 {
            in_part(row, answer, |length| length == 0)
        }
    }
    ShorterAnswersFilledInPart {
        fn strengths_bytes(row: &[u8], answer: &mut [u8]) -> u64 {
            in_part(row, answer, |length| length < STRENGTHS_BYTES)
        }
    }
    AnswerOneLongAccepted {
        fn strengths_answer_fits(length: usize) -> bool {
            length == STRENGTHS_BYTES + 1 || Paper::strengths_answer_fits(length)
        }
    }
    AnswerOf72Accepted {
        fn strengths_answer_fits(length: usize) -> bool {
            length == 72 || Paper::strengths_answer_fits(length)
        }
    }
    LongerAnswersAccepted {
        fn strengths_answer_fits(length: usize) -> bool {
            length >= STRENGTHS_BYTES
        }
    }
    OnlyLongerAnswersAccepted {
        fn strengths_answer_fits(length: usize) -> bool {
            length > STRENGTHS_BYTES
        }
    }
    EveryAnswerRefused {
        fn strengths_answer_fits(_length: usize) -> bool {
            false
        }
    }
    AnswerLengthBeforeAll {
        fn strengths_bytes(row: &[u8], answer: &mut [u8]) -> u64 {
            fits_before(row, answer, |_| Ok(()))
        }
    }
    AnswerLengthBeforeUnreadableCells {
        fn strengths_bytes(row: &[u8], answer: &mut [u8]) -> u64 {
            fits_before(row, answer, |row| match Paper::read_row(row) {
                Err(found) if found.cell == 0 => Err(found),
                _ => Ok(()),
            })
        }
    }
    AnswerLengthBeforeTheRow {
        fn strengths_bytes(row: &[u8], answer: &mut [u8]) -> u64 {
            fits_before(row, answer, Paper::read_row)
        }
    }
    AnswerLengthBeforeFills {
        fn strengths_bytes(row: &[u8], answer: &mut [u8]) -> u64 {
            fits_before(row, answer, |row| Paper::kind_of(&Paper::read_row(row)?))
        }
    }
    AnswerLengthBeforeCodes {
        fn strengths_bytes(row: &[u8], answer: &mut [u8]) -> u64 {
            fits_before(row, answer, |row| {
                let cells = Paper::read_row(row)?;
                Paper::refuse_misfilled(Paper::kind_of(&cells)?, &cells)
            })
        }
    }
    AnswerLengthBeforeRanges {
        fn strengths_bytes(row: &[u8], answer: &mut [u8]) -> u64 {
            fits_before(row, answer, |row| {
                let cells = Paper::read_row(row)?;
                let kind = Paper::kind_of(&cells)?;
                Paper::refuse_misfilled(kind, &cells)?;
                Paper::codes(kind, &cells)
            })
        }
    }
    AnswerLengthAsRefusal1 {
        fn strengths_bytes(row: &[u8], answer: &mut [u8]) -> u64 {
            recoded(row, answer, 5000, 1000)
        }
    }
    AnswerLengthAsRefusal4 {
        fn strengths_bytes(row: &[u8], answer: &mut [u8]) -> u64 {
            recoded(row, answer, 5000, 4000)
        }
    }
    AnswerLengthAsRefusal6 {
        fn strengths_bytes(row: &[u8], answer: &mut [u8]) -> u64 {
            recoded(row, answer, 5000, 6000)
        }
    }
    AnswerLengthAsRefusal8 {
        fn strengths_bytes(row: &[u8], answer: &mut [u8]) -> u64 {
            recoded(row, answer, 5000, 8000)
        }
    }
    AnswerLengthNamesTheFirstCell {
        fn strengths_bytes(row: &[u8], answer: &mut [u8]) -> u64 {
            recoded(row, answer, 5000, 5001)
        }
    }
    AnswerLengthTold {
        fn strengths_bytes(row: &[u8], answer: &mut [u8]) -> u64 {
            let length = answer.len() as u64;
            recoded(row, answer, 5000, 5000 + length)
        }
    }
    ReturnsOne {
        fn strengths_bytes(row: &[u8], answer: &mut [u8]) -> u64 {
            recoded(row, answer, 0, 1)
        }
    }
    ReturnsPassOrFail {
        fn strengths_bytes(row: &[u8], answer: &mut [u8]) -> u64 {
            recoded(row, answer, 0, checked(row))
        }
    }
    ReturnsTheBytesWritten {
        fn strengths_bytes(row: &[u8], answer: &mut [u8]) -> u64 {
            recoded(row, answer, 0, STRENGTHS_BYTES as u64)
        }
    }
    ReturnsHowManyAreGiven {
        fn strengths_bytes(row: &[u8], answer: &mut [u8]) -> u64 {
            recoded(row, answer, 0, NUMBERS as u64)
        }
    }
    AnswerClearedFirst {
        fn strengths_bytes(row: &[u8], answer: &mut [u8]) -> u64 {
            answer.fill(0);
            Paper::strengths_bytes(row, answer)
        }
    }
    RefusalWrittenToTheAnswer {
        fn strengths_bytes(row: &[u8], answer: &mut [u8]) -> u64 {
            answers::refusal_written(Paper::strengths_bytes, row, answer)
        }
    }
    /// Writes as much as fits, and only then tells that the length is another.
    WrittenBeforeTheLengthIsRefused {
        fn strengths_bytes(row: &[u8], answer: &mut [u8]) -> u64 {
            in_part(row, answer, |_| true);
            Paper::strengths_bytes(row, answer)
        }
    }
    NothingWritten {
        fn strengths_bytes(row: &[u8], answer: &mut [u8]) -> u64 {
            answers::written_only_if(Paper::strengths_bytes, row, answer, |_| false)
        }
    }
    NothingWrittenOnFail {
        fn strengths_bytes(row: &[u8], answer: &mut [u8]) -> u64 {
            answers::written_only_if(Paper::strengths_bytes, row, answer, |_| checked(row) != 1)
        }
    }
    LastFloatNotWritten {
        fn strengths_bytes(row: &[u8], answer: &mut [u8]) -> u64 {
            let last = answer.len().saturating_sub(8);
            let before = answer[last..].to_vec();
            let code = Paper::strengths_bytes(row, answer);
            answer[last..].copy_from_slice(&before);
            code
        }
    }
    VerdictWrittenOverTheFirst {
        fn strengths_bytes(row: &[u8], answer: &mut [u8]) -> u64 {
            let code = Paper::strengths_bytes(row, answer);
            if code == 0 {
                Paper::check_bytes(row, &mut answer[..ANSWER_BYTES]);
            }
            code
        }
    }
    /// Reads the first row that it is given and answers for that one for good.
    AnswersForTheFirstRowForGood {
        fn strengths_bytes(row: &[u8], answer: &mut [u8]) -> u64 {
            thread_local!(static FIRST: std::cell::OnceCell<Vec<u8>> = const { std::cell::OnceCell::new() });
            FIRST.with(|first| Paper::strengths_bytes(first.get_or_init(|| row.to_vec()), answer))
        }
    }
}
