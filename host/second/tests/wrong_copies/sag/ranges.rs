//! Wrong copies of the ranges of L, Mn and n.
use lvl_addin::answer::Refusal;
use lvl_second::sag::{Sag, SagRead};
use lvl_second::Paper;
use std::ops::RangeInclusive;

wrong_copies! { SagRules, Sagging:
    NothingTested {
        fn sag_fits(_sag: &Sag) -> bool {
            true
        }
    }
    SpanNotTested {
        fn sag_fits(sag: &Sag) -> bool {
            sag.span > 0 && Paper::sag_fits(&Sag { span: 500, ..*sag })
        }
    }
    MomentNotTested {
        fn sag_fits(sag: &Sag) -> bool {
            Paper::sag_fits(&Sag { moment: 1, ..*sag })
        }
    }
    LimitNotTested {
        fn sag_fits(sag: &Sag) -> bool {
            sag.limit > 0 && Paper::sag_fits(&Sag { limit: 100, ..*sag })
        }
    }
    OneInRangeIsEnough {
        fn sag_fits(sag: &Sag) -> bool {
            let fits = Paper::sag_span_range().contains(&sag.span)
                || Paper::sag_moment_range().contains(&sag.moment)
                || Paper::sag_limit_range().contains(&sag.limit);
            fits && sag.span > 0 && sag.limit > 0
        }
    }
    SpanOfALength {
        fn sag_span_range() -> RangeInclusive<u64> {
            100..=20_000
        }
    }
    SpanOfAnyGreatLength {
        fn sag_span_range() -> RangeInclusive<u64> {
            500..=200_000
        }
    }
    NoMomentAtAllTaken {
        fn sag_moment_range() -> RangeInclusive<u64> {
            0..=10_000_000_000
        }
    }
    MomentTo32Bits {
        fn sag_moment_range() -> RangeInclusive<u64> {
            1..=u32::MAX.into()
        }
    }
    MomentToAllThatReads {
        fn sag_moment_range() -> RangeInclusive<u64> {
            1..=(1 << 34) - 1
        }
    }
    LimitTo1000 {
        fn sag_limit_range() -> RangeInclusive<u64> {
            100..=1000
        }
    }
    LimitFrom0 {
        fn sag_limit_range() -> RangeInclusive<u64> {
            1..=500
        }
    }
    SpanTestedIn16Bits {
        fn sag_fits(sag: &Sag) -> bool {
            Paper::sag_fits(&Sag { span: sag.span % (1 << 16), ..*sag })
        }
    }
    SpanTestedIn32Bits {
        fn sag_fits(sag: &Sag) -> bool {
            Paper::sag_fits(&Sag { span: sag.span % (1 << 32), ..*sag })
        }
    }
    MomentTestedIn32Bits {
        fn sag_fits(sag: &Sag) -> bool {
            Paper::sag_fits(&Sag { moment: sag.moment % (1 << 32), ..*sag })
        }
    }
    LimitTestedIn16Bits {
        fn sag_fits(sag: &Sag) -> bool {
            Paper::sag_fits(&Sag { limit: sag.limit % (1 << 16), ..*sag })
        }
    }
    LimitTestedIn32Bits {
        fn sag_fits(sag: &Sag) -> bool {
            Paper::sag_fits(&Sag { limit: sag.limit % (1 << 32), ..*sag })
        }
    }
    SpanNoLessThanTheSection {
        fn sag(read: &SagRead) -> Result<Sag, Refusal> {
            Paper::sag(read).and_then(|sag| if sag.span < 2500 { Err(Paper::sag_refusal()) } else { Ok(sag) })
        }
    }
    UsualLimitsOnly {
        fn sag(read: &SagRead) -> Result<Sag, Refusal> {
            Paper::sag(read).and_then(|sag| if sag.limit % 10 == 0 { Ok(sag) } else { Err(Paper::sag_refusal()) })
        }
    }
}
