//! Wrong copies of the answer's length, and of what is written and kept.
use super::{right, Given};
use crate::answers;
use lvl_addin::row::ANSWER_BYTES;
use lvl_addin::sag::SAG_ANSWER_BYTES;
use lvl_addin::strengths::STRENGTHS_BYTES;
use lvl_second::{Paper, Rules};
use std::cell::OnceCell;

/// The entry where other answer lengths are taken as well.
fn in_part(given: Given, answer: &mut [u8], taken: impl Fn(usize) -> bool) -> u64 {
    answers::in_part::<_, SAG_ANSWER_BYTES>(right, &given, answer, taken)
}

/// The entry with another number in place of one that it returns.
fn recoded(given: Given, answer: &mut [u8], code: u64, wrong: u64) -> u64 {
    match right(&given, answer) {
        returned if returned == code => wrong,
        returned => returned,
    }
}

/// What a thread was given first.
type First = OnceCell<Vec<u8>>;

wrong_copies! { SagRules, Sagging:
    AnswerOfTheRowTaken {
        fn check_sag_bytes(row: &[u8], sag: &[u8], answer: &mut [u8]) -> u64 {
            in_part((row, sag), answer, |length| length == ANSWER_BYTES)
        }
    }
    AnswerOfTheFloorBeamTaken {
        fn check_sag_bytes(row: &[u8], sag: &[u8], answer: &mut [u8]) -> u64 {
            in_part((row, sag), answer, |length| length == 48)
        }
    }
    UtilisationAloneTaken {
        fn check_sag_bytes(row: &[u8], sag: &[u8], answer: &mut [u8]) -> u64 {
            in_part((row, sag), answer, |length| length == 8)
        }
    }
    NoAnswerTaken {
        fn check_sag_bytes(row: &[u8], sag: &[u8], answer: &mut [u8]) -> u64 {
            in_part((row, sag), answer, |length| length == 0)
        }
    }
    AnswerOneShortTaken {
        fn check_sag_bytes(row: &[u8], sag: &[u8], answer: &mut [u8]) -> u64 {
            in_part((row, sag), answer, |length| length == SAG_ANSWER_BYTES - 1)
        }
    }
    ShorterAnswersFilledInPart {
        fn check_sag_bytes(row: &[u8], sag: &[u8], answer: &mut [u8]) -> u64 {
            in_part((row, sag), answer, |length| length < SAG_ANSWER_BYTES)
        }
    }
    AnswerOneLongTaken {
        fn sag_answer_fits(length: usize) -> bool {
            length == SAG_ANSWER_BYTES + 1 || Paper::sag_answer_fits(length)
        }
    }
    AnswerOfStrengthsTaken {
        fn sag_answer_fits(length: usize) -> bool {
            length == STRENGTHS_BYTES || Paper::sag_answer_fits(length)
        }
    }
    LongerAnswersTaken {
        fn sag_answer_fits(length: usize) -> bool {
            length >= SAG_ANSWER_BYTES
        }
    }
    OnlyLongerAnswersTaken {
        fn sag_answer_fits(length: usize) -> bool {
            length > SAG_ANSWER_BYTES
        }
    }
    EveryAnswerRefused {
        fn sag_answer_fits(_length: usize) -> bool {
            false
        }
    }
    AnswerLengthAsRefusal1 {
        fn check_sag_bytes(row: &[u8], sag: &[u8], answer: &mut [u8]) -> u64 {
            recoded((row, sag), answer, 5000, 1000)
        }
    }
    AnswerLengthAsRefusal10 {
        fn check_sag_bytes(row: &[u8], sag: &[u8], answer: &mut [u8]) -> u64 {
            recoded((row, sag), answer, 5000, 10_000)
        }
    }
    AnswerLengthNamesCell1 {
        fn check_sag_bytes(row: &[u8], sag: &[u8], answer: &mut [u8]) -> u64 {
            recoded((row, sag), answer, 5000, 5001)
        }
    }
    AnswerLengthTold {
        fn check_sag_bytes(row: &[u8], sag: &[u8], answer: &mut [u8]) -> u64 {
            let length = answer.len() as u64;
            recoded((row, sag), answer, 5000, 5000 + length)
        }
    }
    AnswerClearedFirst {
        fn check_sag_bytes(row: &[u8], sag: &[u8], answer: &mut [u8]) -> u64 {
            answer.fill(0);
            right(&(row, sag), answer)
        }
    }
    RefusalWrittenToTheAnswer {
        fn check_sag_bytes(row: &[u8], sag: &[u8], answer: &mut [u8]) -> u64 {
            answers::refusal_written(right, &(row, sag), answer)
        }
    }
    /// Writes as much as fits, and only then tells that the length is another.
    WrittenBeforeTheLengthIsRefused {
        fn check_sag_bytes(row: &[u8], sag: &[u8], answer: &mut [u8]) -> u64 {
            in_part((row, sag), answer, |_| true);
            right(&(row, sag), answer)
        }
    }
    NothingWritten {
        fn check_sag_bytes(row: &[u8], sag: &[u8], answer: &mut [u8]) -> u64 {
            answers::written_only_if(right, &(row, sag), answer, |_| false)
        }
    }
    NothingWrittenOnPass {
        fn check_sag_bytes(row: &[u8], sag: &[u8], answer: &mut [u8]) -> u64 {
            answers::written_only_if(right, &(row, sag), answer, |code| code != 0)
        }
    }
    NothingWrittenOnFail {
        fn check_sag_bytes(row: &[u8], sag: &[u8], answer: &mut [u8]) -> u64 {
            answers::written_only_if(right, &(row, sag), answer, |code| code != 1)
        }
    }
    LastFloatNotWritten {
        fn check_sag_bytes(row: &[u8], sag: &[u8], answer: &mut [u8]) -> u64 {
            let last = answer.len().saturating_sub(8);
            let before = answer[last..].to_vec();
            let code = right(&(row, sag), answer);
            answer[last..].copy_from_slice(&before);
            code
        }
    }
    AnswerOfTheRowWrittenOverIt {
        fn check_sag_bytes(row: &[u8], sag: &[u8], answer: &mut [u8]) -> u64 {
            let code = right(&(row, sag), answer);
            if code < 1000 {
                Paper::check_bytes(row, &mut answer[..ANSWER_BYTES]);
            }
            code
        }
    }
    /// Keeps the first row that it is given for good.
    FirstRowForGood {
        fn check_sag_bytes(row: &[u8], sag: &[u8], answer: &mut [u8]) -> u64 {
            thread_local!(static FIRST: First = const { First::new() });
            FIRST.with(|first| right(&(first.get_or_init(|| row.to_vec()), sag), answer))
        }
    }
    /// Keeps the first sag that it is given for good.
    FirstSagForGood {
        fn check_sag_bytes(row: &[u8], sag: &[u8], answer: &mut [u8]) -> u64 {
            thread_local!(static FIRST: First = const { First::new() });
            FIRST.with(|first| right(&(row, first.get_or_init(|| sag.to_vec())), answer))
        }
    }
    /// Keeps the first row and the first sag.
    FirstVerdictForGood {
        fn check_sag_bytes(row: &[u8], sag: &[u8], answer: &mut [u8]) -> u64 {
            thread_local!(static FIRST: (First, First) = const { (First::new(), First::new()) });
            FIRST.with(|(first_row, first_sag)| {
                let given: Given = (first_row.get_or_init(|| row.to_vec()), first_sag.get_or_init(|| sag.to_vec()));
                right(&given, answer)
            })
        }
    }
}
