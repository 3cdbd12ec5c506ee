//! Wrong copies of the utilisation and of its cap.
use lvl_second::sag::Figures;
use lvl_second::{Paper, Rules};

/// A utilisation as it is given, from a product and what it is divided by.
fn up(product: u64, divisor: u64) -> u64 {
    Paper::capped(u128::from(product).div_ceil(u128::from(divisor)))
}

wrong_copies! { SagRules, Sagging:
    UtilisationDown {
        fn sag_utilisation(moment: u64, figures: &Figures) -> u64 {
            Paper::capped(u128::from(moment * figures.shear_factor / figures.limit_moment))
        }
    }
    UtilisationToNearest {
        fn sag_utilisation(moment: u64, figures: &Figures) -> u64 {
            let doubled = 2 * moment * figures.shear_factor + figures.limit_moment;
            Paper::capped(u128::from(doubled / (2 * figures.limit_moment)))
        }
    }
    UtilisationAlwaysOneMore {
        fn sag_utilisation(moment: u64, figures: &Figures) -> u64 {
            Paper::capped(u128::from(moment * figures.shear_factor / figures.limit_moment + 1))
        }
    }
    UtilisationWithoutShear {
        fn sag_utilisation(moment: u64, figures: &Figures) -> u64 {
            up(1_000_000 * moment, figures.limit_moment)
        }
    }
    UtilisationBeforeShearUp {
        fn sag_utilisation(moment: u64, figures: &Figures) -> u64 {
            up((1_000_000 * moment).div_ceil(figures.limit_moment) * figures.shear_factor, 1_000_000)
        }
    }
    UtilisationBeforeShearDown {
        fn sag_utilisation(moment: u64, figures: &Figures) -> u64 {
            up(1_000_000 * moment / figures.limit_moment * figures.shear_factor, 1_000_000)
        }
    }
    UtilisationBeforeShearCapped {
        fn sag_utilisation(moment: u64, figures: &Figures) -> u64 {
            let bent = UtilisationWithoutShear::sag_utilisation(moment, figures);
            up(bent * figures.shear_factor, 1_000_000)
        }
    }
    EnlargedMomentUp {
        fn sag_utilisation(moment: u64, figures: &Figures) -> u64 {
            let enlarged = u128::from(moment * figures.shear_factor).div_ceil(1_000_000);
            Paper::capped((1_000_000 * enlarged).div_ceil(u128::from(figures.limit_moment)))
        }
    }
    EnlargedMomentDown {
        fn sag_utilisation(moment: u64, figures: &Figures) -> u64 {
            let enlarged = u128::from(moment * figures.shear_factor) / 1_000_000;
            Paper::capped((1_000_000 * enlarged).div_ceil(u128::from(figures.limit_moment)))
        }
    }
    LimitOverShearDown {
        fn sag_utilisation(moment: u64, figures: &Figures) -> u64 {
            up(1_000_000 * moment, (1_000_000 * figures.limit_moment / figures.shear_factor).max(1))
        }
    }
    LimitOverShearUp {
        fn sag_utilisation(moment: u64, figures: &Figures) -> u64 {
            up(1_000_000 * moment, (1_000_000 * figures.limit_moment).div_ceil(figures.shear_factor))
        }
    }
    ShearRaisesTheLimit {
        fn sag_utilisation(moment: u64, figures: &Figures) -> u64 {
            let raised = u128::from(figures.limit_moment) * u128::from(figures.shear_factor);
            Paper::capped((1_000_000_000_000 * u128::from(moment)).div_ceil(raised))
        }
    }
    ShearTwice {
        fn sag_utilisation(moment: u64, figures: &Figures) -> u64 {
            let once = u128::from(moment) * u128::from(figures.shear_factor);
            let twice = once * u128::from(figures.shear_factor);
            Paper::capped(twice.div_ceil(1_000_000 * u128::from(figures.limit_moment)))
        }
    }
    LimitAgainstTheMoment {
        fn sag_utilisation(moment: u64, figures: &Figures) -> u64 {
            let limit = 1_000_000_000_000 * u128::from(figures.limit_moment);
            Paper::capped(limit.div_ceil(u128::from(moment * figures.shear_factor)))
        }
    }
    UtilisationInWholeThousandths {
        fn sag_utilisation(moment: u64, figures: &Figures) -> u64 {
            Paper::capped(u128::from(Paper::sag_utilisation(moment, figures).next_multiple_of(1000)))
        }
    }
    UtilisationByFloats {
        fn sag_utilisation(moment: u64, figures: &Figures) -> u64 {
            let moment = moment as f64 * (figures.shear_factor as f64 / 1e6);
            Paper::capped((1e6 * (moment / figures.limit_moment as f64)).ceil() as u128)
        }
    }
    UtilisationByShortFloats {
        fn sag_utilisation(moment: u64, figures: &Figures) -> u64 {
            let enlarged = moment as f32 * figures.shear_factor as f32;
            Paper::capped((enlarged / figures.limit_moment as f32).ceil() as u128)
        }
    }
    MomentIn32Bits {
        fn sag_utilisation(moment: u64, figures: &Figures) -> u64 {
            Paper::sag_utilisation(u64::from(moment as u32), figures)
        }
    }
    ProductIn62Bits {
        fn sag_utilisation(moment: u64, figures: &Figures) -> u64 {
            up(moment * figures.shear_factor % (1 << 62), figures.limit_moment)
        }
    }
    ProductIn53Bits {
        fn sag_utilisation(moment: u64, figures: &Figures) -> u64 {
            up(moment * figures.shear_factor % (1 << 53), figures.limit_moment)
        }
    }
    MomentGrown {
        fn sag_utilisation(moment: u64, figures: &Figures) -> u64 {
            up(moment * figures.shear_factor * 1005 / 1000, figures.limit_moment)
        }
    }
    CapLeftOut {
        fn sag_utilisation(moment: u64, figures: &Figures) -> u64 {
            (moment * figures.shear_factor).div_ceil(figures.limit_moment).min(u32::MAX.into())
        }
    }
    CapOneLess {
        fn sag_utilisation(moment: u64, figures: &Figures) -> u64 {
            Paper::sag_utilisation(moment, figures).min(9_999_998)
        }
    }
    CapOneMore {
        fn sag_utilisation(moment: u64, figures: &Figures) -> u64 {
            CapLeftOut::sag_utilisation(moment, figures).min(10_000_000)
        }
    }
    CapOfSevenDigits {
        fn sag_utilisation(moment: u64, figures: &Figures) -> u64 {
            CapLeftOut::sag_utilisation(moment, figures) % 10_000_000
        }
    }
    CapAtOne {
        fn sag_utilisation(moment: u64, figures: &Figures) -> u64 {
            Paper::sag_utilisation(moment, figures).min(1_000_000)
        }
    }
    CapJustAboveOne {
        fn sag_utilisation(moment: u64, figures: &Figures) -> u64 {
            Paper::sag_utilisation(moment, figures).min(1_000_001)
        }
    }
}
