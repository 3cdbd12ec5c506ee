//! Wrong copies of Mf.
use lvl_second::sag::{Elastic, Figures, Sag};
use lvl_second::{Cells, Member, Paper, Rules, SagRules};

/// Modulus × e × w, which E is the quotient of.
fn undivided(elastic: &Elastic) -> u64 {
    elastic.modulus * elastic.duration * elastic.moisture
}

/// Mf of a product and its divisor.
fn quotient(product: u64, divisor: u64) -> u64 {
    product / divisor
}

/// The right figures with another Mf.
fn with_limit(cells: &Cells, member: &Member, sag: &Sag, limit_moment: u64) -> Figures {
    Figures {
        limit_moment,
        ..Paper::figures(cells, member, sag)
    }
}

/// The right figures with Mf of another E.
fn limit_of(cells: &Cells, member: &Member, sag: &Sag, modulus: u64) -> Figures {
    let limit = Paper::limit_moment(modulus, member.width, member.height, sag);
    with_limit(cells, member, sag, limit)
}

wrong_copies! { SagRules, Sagging:
    LimitUp {
        fn limit_moment(design_modulus: u64, width: u64, height: u64, sag: &Sag) -> u64 {
            (4 * design_modulus * width * height.pow(3)).div_ceil(5 * sag.span * sag.limit)
        }
    }
    LimitToNearest {
        fn limit_moment(design_modulus: u64, width: u64, height: u64, sag: &Sag) -> u64 {
            let divisor = 5 * sag.span * sag.limit;
            quotient(8 * design_modulus * width * height.pow(3) + divisor, 2 * divisor)
        }
    }
    LimitAlwaysOneMore {
        fn limit_moment(design_modulus: u64, width: u64, height: u64, sag: &Sag) -> u64 {
            Paper::limit_moment(design_modulus, width, height, sag) + 1
        }
    }
    LimitAlwaysOneLess {
        fn limit_moment(design_modulus: u64, width: u64, height: u64, sag: &Sag) -> u64 {
            Paper::limit_moment(design_modulus, width, height, sag) - 1
        }
    }
    LimitByFourSpans {
        fn limit_moment(design_modulus: u64, width: u64, height: u64, sag: &Sag) -> u64 {
            quotient(4 * design_modulus * width * height.pow(3), 4 * sag.span * sag.limit)
        }
    }
    LimitBySixSpans {
        fn limit_moment(design_modulus: u64, width: u64, height: u64, sag: &Sag) -> u64 {
            quotient(4 * design_modulus * width * height.pow(3), 6 * sag.span * sag.limit)
        }
    }
    LimitOfThreeQuarters {
        fn limit_moment(design_modulus: u64, width: u64, height: u64, sag: &Sag) -> u64 {
            quotient(3 * design_modulus * width * height.pow(3), 5 * sag.span * sag.limit)
        }
    }
    LimitOfFiveQuarters {
        fn limit_moment(design_modulus: u64, width: u64, height: u64, sag: &Sag) -> u64 {
            quotient(5 * design_modulus * width * height.pow(3), 5 * sag.span * sag.limit)
        }
    }
    FourAndFiveExchanged {
        fn limit_moment(design_modulus: u64, width: u64, height: u64, sag: &Sag) -> u64 {
            quotient(5 * design_modulus * width * height.pow(3), 4 * sag.span * sag.limit)
        }
    }
    LimitOfAPointLoad {
        fn limit_moment(design_modulus: u64, width: u64, height: u64, sag: &Sag) -> u64 {
            quotient(design_modulus * width * height.pow(3), sag.span * sag.limit)
        }
    }
    LimitOfAConstantMoment {
        fn limit_moment(design_modulus: u64, width: u64, height: u64, sag: &Sag) -> u64 {
            quotient(2 * design_modulus * width * height.pow(3), 3 * sag.span * sag.limit)
        }
    }
    HeightSquared {
        fn limit_moment(design_modulus: u64, width: u64, height: u64, sag: &Sag) -> u64 {
            quotient(4 * design_modulus * width * height.pow(2), 5 * sag.span * sag.limit).max(1)
        }
    }
    HeightToTheFourth {
        fn limit_moment(design_modulus: u64, width: u64, height: u64, sag: &Sag) -> u64 {
            let product = 4 * u128::from(design_modulus) * u128::from(width) * u128::from(height).pow(4);
            (product / u128::from(5 * sag.span * sag.limit)) as u64
        }
    }
    LyingFlat {
        fn limit_moment(design_modulus: u64, width: u64, height: u64, sag: &Sag) -> u64 {
            Paper::limit_moment(design_modulus, height, width, sag)
        }
    }
    WidthLeftOut {
        fn limit_moment(design_modulus: u64, _width: u64, height: u64, sag: &Sag) -> u64 {
            quotient(4 * design_modulus * height.pow(3), 5 * sag.span * sag.limit).max(1)
        }
    }
    SpanSquared {
        fn limit_moment(design_modulus: u64, width: u64, height: u64, sag: &Sag) -> u64 {
            quotient(4 * design_modulus * width * height.pow(3), 5 * sag.span * sag.span * sag.limit).max(1)
        }
    }
    SpanLeftOut {
        fn limit_moment(design_modulus: u64, width: u64, height: u64, sag: &Sag) -> u64 {
            quotient(4 * design_modulus * width * height.pow(3), 5 * sag.limit)
        }
    }
    LimitSquared {
        fn limit_moment(design_modulus: u64, width: u64, height: u64, sag: &Sag) -> u64 {
            quotient(4 * design_modulus * width * height.pow(3), 5 * sag.span * sag.limit * sag.limit).max(1)
        }
    }
    LimitLeftOut {
        fn limit_moment(design_modulus: u64, width: u64, height: u64, sag: &Sag) -> u64 {
            quotient(4 * design_modulus * width * height.pow(3), 5 * sag.span)
        }
    }
    LimitOf200ForAll {
        fn limit_moment(design_modulus: u64, width: u64, height: u64, sag: &Sag) -> u64 {
            Paper::limit_moment(design_modulus, width, height, &Sag { limit: 200, ..*sag })
        }
    }
    HalfTheHeight {
        fn limit_moment(design_modulus: u64, width: u64, height: u64, sag: &Sag) -> u64 {
            quotient(4 * design_modulus * width * (height / 2).pow(3) * 8, 5 * sag.span * sag.limit)
        }
    }
    SpanDividedFirst {
        fn limit_moment(design_modulus: u64, width: u64, height: u64, sag: &Sag) -> u64 {
            quotient(4 * design_modulus * width * (height.pow(3) / sag.span), 5 * sag.limit)
        }
    }
    LimitDividedFirst {
        fn limit_moment(design_modulus: u64, width: u64, height: u64, sag: &Sag) -> u64 {
            quotient(4 * design_modulus * width * (height.pow(3) / sag.limit), 5 * sag.span)
        }
    }
    LimitByTheAllowedSag {
        fn limit_moment(design_modulus: u64, width: u64, height: u64, sag: &Sag) -> u64 {
            let allowed = u128::from(sag.span / sag.limit);
            let product = 4 * u128::from(design_modulus * width * height.pow(3)) * allowed;
            (product / u128::from(5 * sag.span * sag.span)) as u64
        }
    }
    LimitByTheSecondMoment {
        fn limit_moment(design_modulus: u64, width: u64, height: u64, sag: &Sag) -> u64 {
            let second_moment = width * height.pow(3) / 12;
            quotient(48 * design_modulus * second_moment, 5 * sag.span * sag.limit)
        }
    }
    LimitProductIn32Bits {
        fn limit_moment(design_modulus: u64, width: u64, height: u64, sag: &Sag) -> u64 {
            let product = (4 * design_modulus * width * height.pow(3)) as u32;
            quotient(product.into(), 5 * sag.span * sag.limit).max(1)
        }
    }
    LimitIn32Bits {
        fn limit_moment(design_modulus: u64, width: u64, height: u64, sag: &Sag) -> u64 {
            u64::from(Paper::limit_moment(design_modulus, width, height, sag) as u32).max(1)
        }
    }
    LimitNoMoreThan32Bits {
        fn limit_moment(design_modulus: u64, width: u64, height: u64, sag: &Sag) -> u64 {
            Paper::limit_moment(design_modulus, width, height, sag).min(u32::MAX.into())
        }
    }
    LimitNoMoreThanTheGreatestMoment {
        fn limit_moment(design_modulus: u64, width: u64, height: u64, sag: &Sag) -> u64 {
            Paper::limit_moment(design_modulus, width, height, sag).min(10_000_000_000)
        }
    }
    LimitAtLeastOneMoreThanTheLeast {
        fn limit_moment(design_modulus: u64, width: u64, height: u64, sag: &Sag) -> u64 {
            Paper::limit_moment(design_modulus, width, height, sag).max(1945)
        }
    }
    LimitByShortFloats {
        fn limit_moment(design_modulus: u64, width: u64, height: u64, sag: &Sag) -> u64 {
            let product = (4 * design_modulus * width * height.pow(3)) as f32;
            (product / (5 * sag.span * sag.limit) as f32) as u64
        }
    }
    LimitOfTheUnroundedModulus {
        fn figures(cells: &Cells, member: &Member, sag: &Sag) -> Figures {
            let section = 4 * u128::from(member.width) * u128::from(member.height).pow(3);
            let product = u128::from(undivided(&Paper::elastic(cells, member))) * section;
            let divisor = u128::from(50_000 * sag.span * sag.limit);
            with_limit(cells, member, sag, (product / divisor) as u64)
        }
    }
    LimitOfTheModulusUp {
        fn figures(cells: &Cells, member: &Member, sag: &Sag) -> Figures {
            let up = undivided(&Paper::elastic(cells, member)).div_ceil(10_000);
            limit_of(cells, member, sag, up)
        }
    }
    LimitOfTheModulusOfTheTable {
        fn figures(cells: &Cells, member: &Member, sag: &Sag) -> Figures {
            limit_of(cells, member, sag, Paper::modulus(member.grade))
        }
    }
    LimitWithOfficeFactor {
        fn figures(cells: &Cells, member: &Member, sag: &Sag) -> Figures {
            let right = Paper::figures(cells, member, sag).limit_moment;
            with_limit(cells, member, sag, right * member.factors.office / 1000)
        }
    }
    LimitByShear {
        fn figures(cells: &Cells, member: &Member, sag: &Sag) -> Figures {
            let right = Paper::figures(cells, member, sag);
            with_limit(cells, member, sag, right.limit_moment * 1_000_000 / right.shear_factor)
        }
    }
    LimitOfTheBendingCapacity {
        fn figures(cells: &Cells, member: &Member, sag: &Sag) -> Figures {
            let capacity = Paper::bending_capacity(member.width, member.height, Paper::design_bending(member));
            with_limit(cells, member, sag, capacity)
        }
    }
}
