//! A verdict with what it was given for: how far it is from its turn, and what rounding did to it.
use lvl_addin::entry;
use lvl_addin::row::ANSWER_BYTES;
use lvl_addin::sag::{SagVerdict, SAG_ANSWER_BYTES};
use lvl_second::cells::{cell, OFFICE_FACTOR};
use lvl_second::sag_demand::Sagging;
use lvl_second::sags::SagCase;
use lvl_second::{Paper, Rules, SagRules};

/// A sag that is judged.
pub struct Judged {
    pub beam: Sagging,
    pub office_factor: u64,
    pub answer: SagVerdict,
    /// Whether the row passes its own check.
    pub row_passes: bool,
}

impl Judged {
    pub fn new(case: &SagCase, passes: bool, answer: &[u8]) -> Judged {
        let cells = Paper::read_row(case.row()).expect("a judged row reads");
        let sag = Paper::read_sag(case.sag()).expect("a judged sag is in range");
        let answer: &[u8; SAG_ANSWER_BYTES] = answer.try_into().expect("its answer is whole");
        Judged {
            beam: Sagging::of(&cells, [sag.span, sag.moment, sag.limit]),
            office_factor: cell(&cells, OFFICE_FACTOR).expect("a judged row has a material"),
            answer: entry::sag_verdict(passes, answer),
            row_passes: entry::check_bytes(case.row(), &mut [0; ANSWER_BYTES]) == 0,
        }
    }

    /// Modulus × e × w, which E is the quotient of.
    pub fn undivided_modulus(&self) -> u128 {
        let answer = &self.answer;
        u128::from(answer.modulus)
            * u128::from(answer.elastic_duration)
            * u128::from(answer.moisture)
    }

    /// 4 × b × h³.
    fn section(&self) -> u128 {
        4 * u128::from(self.beam.width) * u128::from(self.beam.height).pow(3)
    }

    /// What Mf is divided by.
    pub fn limit_divisor(&self) -> u128 {
        5 * u128::from(self.beam.span) * u128::from(self.beam.limit)
    }

    /// The part of the shear factor above one, as a product and its divisor.
    pub fn shear(&self) -> (u128, u128) {
        let [height, span] = [self.beam.height, self.beam.span].map(u128::from);
        (19_200_000 * height.pow(2), span.pow(2))
    }

    /// Mn with the rounded shear factor, a million times.
    pub fn enlarged(&self) -> u128 {
        u128::from(self.beam.moment) * u128::from(self.answer.shear_factor)
    }

    /// Mf, a million times.
    pub fn limit(&self) -> u128 {
        1_000_000 * u128::from(self.answer.limit_moment)
    }

    /// The utilisation before its cap.
    pub fn uncapped(&self) -> u128 {
        self.enlarged()
            .div_ceil(u128::from(self.answer.limit_moment))
    }

    /// By how much the moment is above the greatest one that passes.
    pub fn beyond_the_turn(&self) -> i128 {
        let turn = self.limit() / u128::from(self.answer.shear_factor);
        i128::from(self.beam.moment) - turn as i128
    }

    /// What Mf is the quotient of.
    pub fn undivided_limit(&self) -> u128 {
        u128::from(self.answer.design_modulus) * self.section()
    }

    /// Whether the utilisation is a whole number before it is rounded.
    pub fn is_used_exactly(&self) -> bool {
        self.enlarged() % u128::from(self.answer.limit_moment) == 0
    }

    /// Whether a fail would be none with nothing rounded.
    pub fn fails_by_rounding(&self) -> bool {
        self.fails_though(self.beam.keeps(true, 1000).is_ok())
    }

    /// Whether a fail would be none with E alone not rounded.
    pub fn fails_by_rounding_e(&self) -> bool {
        let limit = self.undivided_modulus() * self.section() / (10_000 * self.limit_divisor());
        self.fails_though(self.enlarged() <= 1_000_000 * limit)
    }

    /// The same of Mf.
    pub fn fails_by_rounding_mf(&self) -> bool {
        let limit = 1_000_000 * self.undivided_limit();
        self.fails_though(self.enlarged() * self.limit_divisor() <= limit)
    }

    /// The same of the shear factor.
    pub fn fails_by_rounding_shear(&self) -> bool {
        let (product, divisor) = self.shear();
        let enlarged = u128::from(self.beam.moment) * (1_000_000 * divisor + product);
        self.fails_though(enlarged <= self.limit() * divisor)
    }

    fn fails_though(&self, holds: bool) -> bool {
        !self.answer.passes && holds
    }
}
