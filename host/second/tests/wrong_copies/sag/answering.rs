//! Wrong copies of the answer's bytes and of the returned number.
use super::right;
use crate::answers;
use lvl_addin::row::ANSWER_BYTES;
use lvl_addin::sag::{SagVerdict, SAG_ANSWER_BYTES};
use lvl_second::{Paper, Rules, SagRules};

/// The right answer with another float at a place.
fn with(verdict: &SagVerdict, at: usize, float: f64) -> [u8; SAG_ANSWER_BYTES] {
    answers::with_float(Paper::sag_answer_bytes(verdict), at, float)
}

/// The right answer with every float changed.
fn floats_changed(verdict: &SagVerdict, change: impl Fn(f64) -> f64) -> [u8; SAG_ANSWER_BYTES] {
    let mut answer = Paper::sag_answer_bytes(verdict);
    for bytes in answer.chunks_exact_mut(8) {
        let float = f64::from_le_bytes(bytes.try_into().expect("eight bytes"));
        bytes.copy_from_slice(&change(float).to_le_bytes());
    }
    answer
}

wrong_copies! { SagRules, Sagging:
    FiguresBeforeTheUtilisation {
        fn sag_answer_bytes(verdict: &SagVerdict) -> [u8; SAG_ANSWER_BYTES] {
            let mut answer = Paper::sag_answer_bytes(verdict);
            answer.rotate_left(8);
            answer
        }
    }
    ShearFactorFirst {
        fn sag_answer_bytes(verdict: &SagVerdict) -> [u8; SAG_ANSWER_BYTES] {
            let mut answer = Paper::sag_answer_bytes(verdict);
            answer.rotate_right(8);
            answer
        }
    }
    AnswerFromTheLast {
        fn sag_answer_bytes(verdict: &SagVerdict) -> [u8; SAG_ANSWER_BYTES] {
            let mut answer = Paper::sag_answer_bytes(verdict);
            answer.reverse();
            answer
        }
    }
    UtilisationInPercent {
        fn sag_answer_bytes(verdict: &SagVerdict) -> [u8; SAG_ANSWER_BYTES] {
            with(verdict, 0, f64::from(verdict.utilisation) / 10_000.0)
        }
    }
    ModulusInGigapascals {
        fn sag_answer_bytes(verdict: &SagVerdict) -> [u8; SAG_ANSWER_BYTES] {
            with(verdict, 1, f64::from(verdict.modulus) / 1000.0)
        }
    }
    DurationAsFraction {
        fn sag_answer_bytes(verdict: &SagVerdict) -> [u8; SAG_ANSWER_BYTES] {
            with(verdict, 2, f64::from(verdict.elastic_duration) / 100.0)
        }
    }
    MoistureAsFraction {
        fn sag_answer_bytes(verdict: &SagVerdict) -> [u8; SAG_ANSWER_BYTES] {
            with(verdict, 3, f64::from(verdict.moisture) / 100.0)
        }
    }
    DesignModulusInKilopascals {
        fn sag_answer_bytes(verdict: &SagVerdict) -> [u8; SAG_ANSWER_BYTES] {
            with(verdict, 4, f64::from(verdict.design_modulus) * 1000.0)
        }
    }
    DesignModulusUnrounded {
        fn sag_answer_bytes(verdict: &SagVerdict) -> [u8; SAG_ANSWER_BYTES] {
            let product = verdict.modulus * verdict.elastic_duration * verdict.moisture;
            with(verdict, 4, f64::from(product) / 10_000.0)
        }
    }
    LimitMomentInNewtonMetres {
        fn sag_answer_bytes(verdict: &SagVerdict) -> [u8; SAG_ANSWER_BYTES] {
            with(verdict, 5, verdict.limit_moment as f64 / 1000.0)
        }
    }
    LimitMomentByWayOfAShortFloat {
        fn sag_answer_bytes(verdict: &SagVerdict) -> [u8; SAG_ANSWER_BYTES] {
            with(verdict, 5, f64::from(verdict.limit_moment as f32))
        }
    }
    LimitMomentIn32Bits {
        fn sag_answer_bytes(verdict: &SagVerdict) -> [u8; SAG_ANSWER_BYTES] {
            with(verdict, 5, f64::from(verdict.limit_moment as u32))
        }
    }
    LimitMomentWithShear {
        fn sag_answer_bytes(verdict: &SagVerdict) -> [u8; SAG_ANSWER_BYTES] {
            let reduced = verdict.limit_moment as f64 * 1e6 / f64::from(verdict.shear_factor);
            with(verdict, 5, reduced.floor())
        }
    }
    ShearFactorAsRatio {
        fn sag_answer_bytes(verdict: &SagVerdict) -> [u8; SAG_ANSWER_BYTES] {
            with(verdict, 6, f64::from(verdict.shear_factor) / 1e6)
        }
    }
    ShearPartAlone {
        fn sag_answer_bytes(verdict: &SagVerdict) -> [u8; SAG_ANSWER_BYTES] {
            with(verdict, 6, f64::from(verdict.shear_factor - 1_000_000))
        }
    }
    ShearFactorByWayOfAShortFloat {
        fn sag_answer_bytes(verdict: &SagVerdict) -> [u8; SAG_ANSWER_BYTES] {
            with(verdict, 6, f64::from(verdict.shear_factor as f32))
        }
    }
    EveryFloatByWayOfAShortOne {
        fn sag_answer_bytes(verdict: &SagVerdict) -> [u8; SAG_ANSWER_BYTES] {
            floats_changed(verdict, |float| f64::from(float as f32))
        }
    }
    EveryFloatJustAbove {
        fn sag_answer_bytes(verdict: &SagVerdict) -> [u8; SAG_ANSWER_BYTES] {
            floats_changed(verdict, |float| f64::from_bits(float.to_bits() + 1))
        }
    }
    EveryFloatNegative {
        fn sag_answer_bytes(verdict: &SagVerdict) -> [u8; SAG_ANSWER_BYTES] {
            floats_changed(verdict, |float| -float)
        }
    }
    PassReturnsOne {
        fn sag_verdict_code(verdict: &SagVerdict) -> u64 {
            u64::from(verdict.passes)
        }
    }
    PassReturnedForBoth {
        fn sag_verdict_code(_verdict: &SagVerdict) -> u64 {
            0
        }
    }
    FailReturnedForBoth {
        fn sag_verdict_code(_verdict: &SagVerdict) -> u64 {
            1
        }
    }
    FailReturnsTwo {
        fn sag_verdict_code(verdict: &SagVerdict) -> u64 {
            if verdict.passes { 0 } else { 2 }
        }
    }
    FailReturnsHowOftenItIsUsed {
        fn sag_verdict_code(verdict: &SagVerdict) -> u64 {
            if verdict.passes { 0 } else { u64::from(verdict.utilisation / 1_000_000) }
        }
    }
    ReturnsTheBytesWritten {
        fn sag_verdict_code(_verdict: &SagVerdict) -> u64 {
            SAG_ANSWER_BYTES as u64
        }
    }
    ReturnsTheVerdictOfTheRow {
        fn check_sag_bytes(row: &[u8], sag: &[u8], answer: &mut [u8]) -> u64 {
            match right(&(row, sag), answer) {
                0 | 1 => Paper::check_bytes(row, &mut [0; ANSWER_BYTES]),
                refusal => refusal,
            }
        }
    }
}
