//! Wrong copies of the shear factor.
use super::figures::ShearModulus;
use lvl_second::sag::{Figures, Sag};
use lvl_second::{Cells, Member, Paper, SagRules};

/// The figures of another factor for shear.
fn with_shear(cells: &Cells, member: &Member, sag: &Sag, shear_factor: u64) -> Figures {
    Figures {
        shear_factor,
        ..Paper::figures(cells, member, sag)
    }
}

/// What shear adds by another figure.
fn shear_of(figure: u64, height: u64, span: u64) -> u64 {
    (figure * height * height).div_ceil(span * span)
}

wrong_copies! { SagRules, Sagging:
    ShearDown {
        fn shear_part(height: u64, span: u64) -> u64 {
            19_200_000 * height * height / (span * span)
        }
    }
    ShearToNearest {
        fn shear_part(height: u64, span: u64) -> u64 {
            (38_400_000 * height * height + span * span) / (2 * span * span)
        }
    }
    ShearAlwaysOneMore {
        fn shear_part(height: u64, span: u64) -> u64 {
            19_200_000 * height * height / (span * span) + 1
        }
    }
    ShearLeftOut {
        fn shear_part(_height: u64, _span: u64) -> u64 {
            0
        }
    }
    ShearOneLess {
        fn shear_part(height: u64, span: u64) -> u64 {
            shear_of(19_199_999, height, span)
        }
    }
    ShearOneMore {
        fn shear_part(height: u64, span: u64) -> u64 {
            shear_of(19_200_001, height, span)
        }
    }
    ShearOf15Point4 {
        fn shear_part(height: u64, span: u64) -> u64 {
            shear_of(15_400_000, height, span)
        }
    }
    ShearOf20 {
        fn shear_part(height: u64, span: u64) -> u64 {
            shear_of(20_000_000, height, span)
        }
    }
    ShearTenfold {
        fn shear_part(height: u64, span: u64) -> u64 {
            shear_of(192_000_000, height, span)
        }
    }
    /// By the moduli of the table, of which only those of K35 give the figure of the request.
    ShearByTheTable {
        fn figures(cells: &Cells, member: &Member, sag: &Sag) -> Figures {
            let shear_modulus = ShearModulus::modulus(member.grade);
            let figure = 960_000 * Paper::modulus(member.grade) / shear_modulus;
            with_shear(cells, member, sag, 1_000_000 + shear_of(figure, member.height, sag.span))
        }
    }
    ShearByTheWidth {
        fn figures(cells: &Cells, member: &Member, sag: &Sag) -> Figures {
            with_shear(cells, member, sag, Paper::shear_factor(member.width, sag.span))
        }
    }
    SlopeNotSquared {
        fn shear_part(height: u64, span: u64) -> u64 {
            (19_200_000 * height).div_ceil(span)
        }
    }
    HeightNotSquared {
        fn shear_part(height: u64, span: u64) -> u64 {
            (19_200_000 * height).div_ceil(span * span)
        }
    }
    SpanNotSquared {
        fn shear_part(height: u64, span: u64) -> u64 {
            (19_200_000 * height * height).div_ceil(span)
        }
    }
    HeightAndSpanExchanged {
        fn shear_part(height: u64, span: u64) -> u64 {
            Paper::shear_part(span, height)
        }
    }
    SlopeRoundedUpFirst {
        fn shear_part(height: u64, span: u64) -> u64 {
            (192 * (1000 * height).div_ceil(span).pow(2)).div_ceil(10)
        }
    }
    SlopeRoundedDownFirst {
        fn shear_part(height: u64, span: u64) -> u64 {
            (192 * (1000 * height / span).pow(2)).div_ceil(10)
        }
    }
    ShearInWholeThousandths {
        fn shear_part(height: u64, span: u64) -> u64 {
            Paper::shear_part(height, span).next_multiple_of(1000)
        }
    }
    ShearNoMoreThanDouble {
        fn shear_part(height: u64, span: u64) -> u64 {
            Paper::shear_part(height, span).min(1_000_000)
        }
    }
    ShearOfStockyBeamsOnly {
        fn shear_part(height: u64, span: u64) -> u64 {
            if span >= 20 * height { 0 } else { Paper::shear_part(height, span) }
        }
    }
    ShearProductIn32Bits {
        fn shear_part(height: u64, span: u64) -> u64 {
            u64::from((19_200_000 * height * height) as u32).div_ceil(span * span)
        }
    }
    ShearWithoutOne {
        fn shear_factor(height: u64, span: u64) -> u64 {
            Paper::shear_part(height, span)
        }
    }
    ShearFromOneTenth {
        fn shear_factor(height: u64, span: u64) -> u64 {
            100_000 + Paper::shear_part(height, span)
        }
    }
    ShearFactorInThousandths {
        fn shear_factor(height: u64, span: u64) -> u64 {
            1000 + Paper::shear_part(height, span).div_ceil(1000)
        }
    }
    ShearTakenOff {
        fn shear_factor(height: u64, span: u64) -> u64 {
            1_000_000_u64.saturating_sub(Paper::shear_part(height, span))
        }
    }
}
