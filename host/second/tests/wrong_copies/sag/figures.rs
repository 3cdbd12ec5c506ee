//! Wrong copies of the moduli, of e and w, and of E.
use lvl_second::cells::{cell, Grade, HEIGHT, MOISTURE};
use lvl_second::sag::{Elastic, Figures, Sag};
use lvl_second::{Cells, Member, Paper, Rules, SagRules};

/// What E is made of, with another e.
fn with_duration(cells: &Cells, member: &Member, duration: u64) -> Elastic {
    Elastic {
        duration,
        ..Paper::elastic(cells, member)
    }
}

/// The same with another w.
fn with_moisture(cells: &Cells, member: &Member, moisture: u64) -> Elastic {
    Elastic {
        moisture,
        ..Paper::elastic(cells, member)
    }
}

/// The figures of another E.
fn with_modulus(cells: &Cells, member: &Member, sag: &Sag, modulus: u64) -> Figures {
    Figures {
        design_modulus: modulus,
        limit_moment: Paper::limit_moment(modulus, member.width, member.height, sag),
        ..Paper::figures(cells, member, sag)
    }
}

/// E where it is rounded in another way.
fn rounded(elastic: &Elastic, by: impl Fn(u64) -> u64) -> u64 {
    by(elastic.modulus * elastic.duration * elastic.moisture)
}

wrong_copies! { SagRules, Sagging:
    ModuliInReverse {
        fn modulus(grade: Grade) -> u64 {
            22_000 - Paper::modulus(grade)
        }
    }
    ModulusOfK45ForAll {
        fn modulus(_grade: Grade) -> u64 {
            12_000
        }
    }
    ModulusOfK40ForAll {
        fn modulus(_grade: Grade) -> u64 {
            11_000
        }
    }
    ModulusOfK35ForAll {
        fn modulus(_grade: Grade) -> u64 {
            10_000
        }
    }
    ModulusAcrossTheGrain {
        fn modulus(grade: Grade) -> u64 {
            match grade { Grade::K45 => 500, Grade::K40 => 450, Grade::K35 => 400 }
        }
    }
    ShearModulus {
        fn modulus(grade: Grade) -> u64 {
            match grade { Grade::K45 => 700, Grade::K40 => 600, Grade::K35 => 500 }
        }
    }
    ModulusByBendingStrength {
        fn modulus(grade: Grade) -> u64 {
            Paper::bending_strength(grade)
        }
    }
    ModulusInGigapascals {
        fn modulus(grade: Grade) -> u64 {
            Paper::modulus(grade) / 1000
        }
    }
    StrengthFactorForE {
        fn elastic(cells: &Cells, member: &Member) -> Elastic {
            with_duration(cells, member, member.factors.duration)
        }
    }
    LesserOfBothDurationFactors {
        fn elastic(cells: &Cells, member: &Member) -> Elastic {
            let right = Paper::elastic(cells, member);
            with_duration(cells, member, right.duration.min(member.factors.duration))
        }
    }
    GreaterOfBothDurationFactors {
        fn elastic(cells: &Cells, member: &Member) -> Elastic {
            let right = Paper::elastic(cells, member);
            with_duration(cells, member, right.duration.max(member.factors.duration))
        }
    }
    /// Goes by the strengths' factor, which regimes В and Г share.
    DurationByTheStrengthFactor {
        fn elastic(cells: &Cells, member: &Member) -> Elastic {
            let duration = match member.factors.duration { 53 => 75, 66 => 90, _ => 100 };
            with_duration(cells, member, duration)
        }
    }
    DurationsExchanged {
        fn elastic_duration(code: u64) -> u64 {
            match code { 2 => 90, 3 => 75, _ => 100 }
        }
    }
    DurationOfTheRegimeBefore {
        fn elastic_duration(code: u64) -> u64 {
            Paper::elastic_duration(code + 1)
        }
    }
    DurationOfTheRegimeAfter {
        fn elastic_duration(code: u64) -> u64 {
            Paper::elastic_duration(code - 1)
        }
    }
    NoDuration {
        fn elastic_duration(_code: u64) -> u64 {
            100
        }
    }
    EveryRegimeAs75 {
        fn elastic_duration(_code: u64) -> u64 {
            75
        }
    }
    EveryRegimeAs90 {
        fn elastic_duration(_code: u64) -> u64 {
            90
        }
    }
    NoMoisture {
        fn elastic(cells: &Cells, member: &Member) -> Elastic {
            with_moisture(cells, member, 100)
        }
    }
    AlwaysWet {
        fn elastic(cells: &Cells, member: &Member) -> Elastic {
            with_moisture(cells, member, 75)
        }
    }
    MoistureInPercent {
        fn elastic(cells: &Cells, member: &Member) -> Elastic {
            with_moisture(cells, member, 100 - cell(cells, MOISTURE).unwrap_or(0))
        }
    }
    DurationAndMoistureExchanged {
        fn elastic(cells: &Cells, member: &Member) -> Elastic {
            let right = Paper::elastic(cells, member);
            Elastic { duration: right.moisture, moisture: right.duration, ..right }
        }
    }
    ModulusUp {
        fn design_modulus(elastic: &Elastic) -> u64 {
            rounded(elastic, |product| product.div_ceil(10_000))
        }
    }
    ModulusToNearest {
        fn design_modulus(elastic: &Elastic) -> u64 {
            rounded(elastic, |product| (product + 5000) / 10_000)
        }
    }
    ModulusAlwaysOneMore {
        fn design_modulus(elastic: &Elastic) -> u64 {
            Paper::design_modulus(elastic) + 1
        }
    }
    ModulusAlwaysOneLess {
        fn design_modulus(elastic: &Elastic) -> u64 {
            Paper::design_modulus(elastic) - 1
        }
    }
    ModulusDownToTens {
        fn design_modulus(elastic: &Elastic) -> u64 {
            Paper::design_modulus(elastic) / 10 * 10
        }
    }
    ModulusWithoutDuration {
        fn design_modulus(elastic: &Elastic) -> u64 {
            elastic.modulus * elastic.moisture / 100
        }
    }
    ModulusWithoutMoisture {
        fn design_modulus(elastic: &Elastic) -> u64 {
            elastic.modulus * elastic.duration / 100
        }
    }
    ModulusOfTheTable {
        fn design_modulus(elastic: &Elastic) -> u64 {
            elastic.modulus
        }
    }
    ModulusOfTheLesserFactor {
        fn design_modulus(elastic: &Elastic) -> u64 {
            elastic.modulus * elastic.duration.min(elastic.moisture) / 100
        }
    }
    ModulusOfTheMeanFactor {
        fn design_modulus(elastic: &Elastic) -> u64 {
            elastic.modulus * (elastic.duration + elastic.moisture) / 200
        }
    }
    ModulusWithDurationTwice {
        fn design_modulus(elastic: &Elastic) -> u64 {
            elastic.modulus * elastic.duration * elastic.duration / 10_000
        }
    }
    ModulusWithMoistureTwice {
        fn design_modulus(elastic: &Elastic) -> u64 {
            elastic.modulus * elastic.moisture * elastic.moisture / 10_000
        }
    }
    ModulusByThousands {
        fn design_modulus(elastic: &Elastic) -> u64 {
            rounded(elastic, |product| product / 1000)
        }
    }
    ModulusWithOfficeFactor {
        fn figures(cells: &Cells, member: &Member, sag: &Sag) -> Figures {
            let product = Paper::design_modulus(&Paper::elastic(cells, member)) * member.factors.office;
            with_modulus(cells, member, sag, product / 1000)
        }
    }
    ModulusByOfficeFactor {
        fn figures(cells: &Cells, member: &Member, sag: &Sag) -> Figures {
            let product = Paper::design_modulus(&Paper::elastic(cells, member)) * 1000;
            with_modulus(cells, member, sag, product / member.factors.office)
        }
    }
    ModulusByTheFactorsOfStrengths {
        fn figures(cells: &Cells, member: &Member, sag: &Sag) -> Figures {
            let product = Paper::modulus(member.grade) * Paper::factor_product(&member.factors);
            with_modulus(cells, member, sag, product / 10_000_000)
        }
    }
    /// One millimetre lost from the height.
    HeightOneLess {
        fn figures(cells: &Cells, member: &Member, sag: &Sag) -> Figures {
            let mut lower = *cells;
            lower[HEIGHT - 1] = lower[HEIGHT - 1].map(|height| height - 1);
            Paper::figures(&lower, &Member { height: member.height - 1, ..*member }, sag)
        }
    }
}
