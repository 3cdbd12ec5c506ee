//! Wrong copies of answering.
use crate::answers;
use lvl_addin::answer::{Refusal, Verdict};
use lvl_addin::row::ANSWER_BYTES;
use lvl_second::Paper;

wrong_copies! { Rules, Checking:
    AnswerHighestByteFirst {
        fn float_bytes(number: f64) -> [u8; 8] {
            number.to_be_bytes()
        }
    }
    AnswerAsWholeNumbers {
        fn float_bytes(number: f64) -> [u8; 8] {
            (number as u64).to_le_bytes()
        }
    }
    AnswerByWayOfShortFloats {
        fn float_bytes(number: f64) -> [u8; 8] {
            Paper::float_bytes(f64::from(number as f32 / 1_000_000.0) * 1_000_000.0)
        }
    }
    UtilisationAndCountExchanged {
        fn answer_bytes(verdict: &Verdict) -> [u8; ANSWER_BYTES] {
            Paper::answer_bytes(&Verdict { utilisation: verdict.count, count: verdict.utilisation, ..*verdict })
        }
    }
    CountAndCheckExchanged {
        fn answer_bytes(verdict: &Verdict) -> [u8; ANSWER_BYTES] {
            Paper::answer_bytes(&Verdict { check: verdict.count, count: verdict.check, ..*verdict })
        }
    }
    UtilisationAndCheckExchanged {
        fn answer_bytes(verdict: &Verdict) -> [u8; ANSWER_BYTES] {
            Paper::answer_bytes(&Verdict { utilisation: verdict.check, check: verdict.utilisation, ..*verdict })
        }
    }
    AnswerWithoutCount {
        fn answer_bytes(verdict: &Verdict) -> [u8; ANSWER_BYTES] {
            Paper::answer_bytes(&Verdict { count: 0, ..*verdict })
        }
    }
    PassAndFailExchanged {
        fn verdict_code(verdict: &Verdict) -> u64 {
            u64::from(verdict.passes)
        }
    }
    FailReturnsTheCheck {
        fn verdict_code(verdict: &Verdict) -> u64 {
            if verdict.passes { 0 } else { u64::from(verdict.check) }
        }
    }
    ThousandTimesTheCell {
        fn refusal_code(refusal: Refusal) -> u64 {
            1000 * u64::from(refusal.cell) + u64::from(refusal.number)
        }
    }
    HundredTimesTheNumber {
        fn refusal_code(refusal: Refusal) -> u64 {
            100 * u64::from(refusal.number) + u64::from(refusal.cell)
        }
    }
    RefusalWithoutCell {
        fn refusal_code(refusal: Refusal) -> u64 {
            1000 * u64::from(refusal.number)
        }
    }
    AnswerLength25Accepted {
        fn answer_fits(length: usize) -> bool {
            length == 25 || Paper::answer_fits(length)
        }
    }
    LongerAnswersAccepted {
        fn answer_fits(length: usize) -> bool {
            length >= ANSWER_BYTES
        }
    }
    ShorterAnswersFilledInPart {
        fn check_bytes(row: &[u8], answer: &mut [u8]) -> u64 {
            answers::in_part::<_, ANSWER_BYTES>(Paper::check_bytes, row, answer, |length| (16..ANSWER_BYTES).contains(&length))
        }
    }
    AnswerLengthBeforeTheRow {
        fn check_bytes(row: &[u8], answer: &mut [u8]) -> u64 {
            answers::fits_before(Paper::check_bytes, row, answer, Paper::answer_fits, |_| Ok(()))
        }
    }
    AnswerLengthBeforeTheCheck {
        fn check_bytes(row: &[u8], answer: &mut [u8]) -> u64 {
            answers::fits_before(Paper::check_bytes, row, answer, Paper::answer_fits, Paper::read_row)
        }
    }
    AnswerClearedFirst {
        fn check_bytes(row: &[u8], answer: &mut [u8]) -> u64 {
            answer.fill(0);
            Paper::check_bytes(row, answer)
        }
    }
    RefusalWrittenToTheAnswer {
        fn check_bytes(row: &[u8], answer: &mut [u8]) -> u64 {
            answers::refusal_written(Paper::check_bytes, row, answer)
        }
    }
    AnswerNotWrittenOnFail {
        fn check_bytes(row: &[u8], answer: &mut [u8]) -> u64 {
            answers::written_only_if(Paper::check_bytes, row, answer, |code| code != 1)
        }
    }
    /// Reads the first row that it is given and judges that one for good.
    JudgesTheFirstRowForGood {
        fn check_bytes(row: &[u8], answer: &mut [u8]) -> u64 {
            thread_local!(static FIRST: std::cell::OnceCell<Vec<u8>> = const { std::cell::OnceCell::new() });
            FIRST.with(|first| Paper::check_bytes(first.get_or_init(|| row.to_vec()), answer))
        }
    }
}
