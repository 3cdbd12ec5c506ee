//! Wrong copies of the strengths and remainders that are given.
use lvl_second::cells::{Factors, Grade, Kind, Member};
use lvl_second::exact_strength::{Stress, NUMBERS, STRESSES};
use lvl_second::{Paper, Rules, StrengthRules};

/// What the product is divided by.
const DIVISOR: u64 = 10_000_000;

/// The undivided product of a member with other factors.
fn with_factors(stress: Stress, member: &Member, factors: Factors) -> u64 {
    Paper::undivided(stress, &Member { factors, ..*member })
}

/// The product's quotient rounded up and rounded to the nearest.
fn up(stress: Stress, member: &Member) -> u64 {
    Paper::undivided(stress, member).div_ceil(DIVISOR)
}

fn nearest(stress: Stress, member: &Member) -> u64 {
    (Paper::undivided(stress, member) + DIVISOR / 2) / DIVISOR
}

/// The right remainder.
fn remainder(stress: Stress, member: &Member) -> u64 {
    Paper::remainder(Paper::undivided(stress, member))
}

/// Whether a check of the member's kind uses the strength in a stress.
fn is_used(stress: Stress, kind: Kind) -> bool {
    match stress {
        Stress::Bending | Stress::Shear => !matches!(kind, Kind::Tension | Kind::Compression),
        Stress::Compression => matches!(kind, Kind::Compression | Kind::CompressionWithBending),
        Stress::Tension => matches!(kind, Kind::Tension | Kind::TensionWithBending),
    }
}

/// All strengths, then all remainders.
fn apart(member: &Member) -> [u64; NUMBERS] {
    let right = Paper::strength_numbers(member);
    std::array::from_fn(|at| right[2 * (at % STRESSES) + at / STRESSES])
}

wrong_copies! { StrengthRules, GivingStrengths:
    NoRemainder {
        fn remainder(_undivided: u64) -> u64 {
            0
        }
    }
    RemainderOfAMillion {
        fn remainder(undivided: u64) -> u64 {
            undivided % 1_000_000
        }
    }
    RemainderOfAHundredMillion {
        fn remainder(undivided: u64) -> u64 {
            undivided % 100_000_000
        }
    }
    RemainderOfOneLess {
        fn remainder(undivided: u64) -> u64 {
            undivided % 9_999_999
        }
    }
    RemainderInPascals {
        fn remainder(undivided: u64) -> u64 {
            Paper::remainder(undivided) / 10_000
        }
    }
    RemainderInMillionths {
        fn remainder(undivided: u64) -> u64 {
            Paper::remainder(undivided) / 10
        }
    }
    RemainderInHundredMillionths {
        fn remainder(undivided: u64) -> u64 {
            Paper::remainder(undivided) * 10
        }
    }
    RemainderInWholePascals {
        fn remainder(undivided: u64) -> u64 {
            Paper::remainder(undivided) / 10_000 * 10_000
        }
    }
    MissingToTheNext {
        fn remainder(undivided: u64) -> u64 {
            DIVISOR - Paper::remainder(undivided)
        }
    }
    MissingToTheNextUnlessWhole {
        fn remainder(undivided: u64) -> u64 {
            (DIVISOR - Paper::remainder(undivided)) % DIVISOR
        }
    }
    OffTheNearest {
        fn remainder(undivided: u64) -> u64 {
            let right = Paper::remainder(undivided);
            right.min(DIVISOR - right)
        }
    }
    DivisorForNothing {
        fn remainder(undivided: u64) -> u64 {
            match Paper::remainder(undivided) {
                0 => DIVISOR,
                right => right,
            }
        }
    }
    ProductForRemainder {
        fn remainder(undivided: u64) -> u64 {
            undivided
        }
    }
    QuotientForRemainder {
        fn remainder(undivided: u64) -> u64 {
            undivided / DIVISOR
        }
    }
    RemainderOfAProductOf32Bits {
        fn remainder(undivided: u64) -> u64 {
            Paper::remainder(u64::from(undivided as u32))
        }
    }
    RemainderOfAProductInAShortFloat {
        fn remainder(undivided: u64) -> u64 {
            Paper::remainder(undivided as f32 as u64)
        }
    }
    RemainderIn16Bits {
        fn remainder(undivided: u64) -> u64 {
            u64::from(Paper::remainder(undivided) as u16)
        }
    }
    RemainderOfTheFactorsAlone {
        fn undivided(_stress: Stress, member: &Member) -> u64 {
            Paper::factor_product(&member.factors)
        }
    }
    RemainderWithoutDuration {
        fn undivided(stress: Stress, member: &Member) -> u64 {
            with_factors(stress, member, Factors { duration: 100, ..member.factors })
        }
    }
    RemainderWithoutMoisture {
        fn undivided(stress: Stress, member: &Member) -> u64 {
            with_factors(stress, member, Factors { moisture: 100, ..member.factors })
        }
    }
    RemainderWithoutOfficeFactor {
        fn undivided(stress: Stress, member: &Member) -> u64 {
            with_factors(stress, member, Factors { office: 1000, ..member.factors })
        }
    }
    RemainderWithDurationCappedAtOne {
        fn undivided(stress: Stress, member: &Member) -> u64 {
            let duration = member.factors.duration.min(100);
            with_factors(stress, member, Factors { duration, ..member.factors })
        }
    }
    RemainderOfTheHighestGrade {
        fn undivided(stress: Stress, member: &Member) -> u64 {
            Paper::undivided(stress, &Member { grade: Grade::K45, ..*member })
        }
    }
    RoundedAfterEachFactor {
        fn strength_in(stress: Stress, member: &Member) -> u64 {
            let Factors { duration, moisture, office } = member.factors;
            Paper::table_value(stress, member.grade) * duration / 100 * moisture / 100 * office / 1000
        }
    }
    /// The strength that floats give, where a factor of 0.53 is a little more or less.
    StrengthInFloats {
        fn strength_in(stress: Stress, member: &Member) -> u64 {
            let Factors { duration, moisture, office } = member.factors;
            let [t, w] = [duration, moisture].map(|factor| factor as f64 / 100.0);
            (Paper::table_value(stress, member.grade) as f64 * t * w * (office as f64 / 1000.0)) as u64
        }
    }
    StrengthOfTheTable {
        fn strength_in(stress: Stress, member: &Member) -> u64 {
            Paper::table_value(stress, member.grade)
        }
    }
    StrengthOneLess {
        fn strength_in(stress: Stress, member: &Member) -> u64 {
            Paper::strength_in(stress, member) - 1
        }
    }
    OneLessAndAllTheRest {
        fn strength_and_remainder(stress: Stress, member: &Member) -> [u64; 2] {
            [Paper::strength_in(stress, member) - 1, remainder(stress, member) + DIVISOR]
        }
    }
    /// The greatest number below the quotient, with all the rest.
    OneLessWhereWhole {
        fn strength_and_remainder(stress: Stress, member: &Member) -> [u64; 2] {
            let less = up(stress, member) - 1;
            [less, Paper::undivided(stress, member) - less * DIVISOR]
        }
    }
    UpWithoutRemainder {
        fn strength_and_remainder(stress: Stress, member: &Member) -> [u64; 2] {
            [up(stress, member), 0]
        }
    }
    UpWithWhatWasAdded {
        fn strength_and_remainder(stress: Stress, member: &Member) -> [u64; 2] {
            [up(stress, member), up(stress, member) * DIVISOR - Paper::undivided(stress, member)]
        }
    }
    UpWithABorrowOf64Bits {
        fn strength_and_remainder(stress: Stress, member: &Member) -> [u64; 2] {
            let strength = up(stress, member);
            [strength, Paper::undivided(stress, member).wrapping_sub(strength * DIVISOR)]
        }
    }
    UpWithABorrowOf32Bits {
        fn strength_and_remainder(stress: Stress, member: &Member) -> [u64; 2] {
            let strength = up(stress, member);
            let borrowed = Paper::undivided(stress, member).wrapping_sub(strength * DIVISOR);
            [strength, u64::from(borrowed as u32)]
        }
    }
    NearestWithWhatIsOff {
        fn strength_and_remainder(stress: Stress, member: &Member) -> [u64; 2] {
            let strength = nearest(stress, member);
            [strength, Paper::undivided(stress, member).abs_diff(strength * DIVISOR)]
        }
    }
    NearestWithoutRemainder {
        fn strength_and_remainder(stress: Stress, member: &Member) -> [u64; 2] {
            [nearest(stress, member), 0]
        }
    }
    StrengthAndRemainderExchanged {
        fn strength_and_remainder(stress: Stress, member: &Member) -> [u64; 2] {
            let [strength, remainder] = Paper::strength_and_remainder(stress, member);
            [remainder, strength]
        }
    }
    ProductBeforeTheRemainder {
        fn strength_and_remainder(stress: Stress, member: &Member) -> [u64; 2] {
            [Paper::undivided(stress, member), remainder(stress, member)]
        }
    }
    UnusedStressesAsZero {
        fn strength_and_remainder(stress: Stress, member: &Member) -> [u64; 2] {
            if is_used(stress, member.kind) { Paper::strength_and_remainder(stress, member) } else { [0; 2] }
        }
    }
    RemaindersOfUsedStressesAlone {
        fn strength_and_remainder(stress: Stress, member: &Member) -> [u64; 2] {
            let [strength, remainder] = Paper::strength_and_remainder(stress, member);
            [strength, if is_used(stress, member.kind) { remainder } else { 0 }]
        }
    }
    TensionReducedAtAJoint {
        fn strength_in(stress: Stress, member: &Member) -> u64 {
            let strength = Paper::strength_in(stress, member);
            if stress == Stress::Tension && member.joint.is_some() { strength * 8 / 10 } else { strength }
        }
    }
    BendingReducedInDeepMembers {
        fn strength_in(stress: Stress, member: &Member) -> u64 {
            let strength = Paper::strength_in(stress, member);
            if stress == Stress::Bending && member.height > 500 { strength * 9 / 10 } else { strength }
        }
    }
    ZerosWhereTheRowFails {
        fn strength_numbers(member: &Member) -> [u64; NUMBERS] {
            if Paper::judge(member).passes { Paper::strength_numbers(member) } else { [0; NUMBERS] }
        }
    }
    RemaindersAfterAllStrengths {
        fn strength_numbers(member: &Member) -> [u64; NUMBERS] {
            apart(member)
        }
    }
    RemaindersBeforeAllStrengths {
        fn strength_numbers(member: &Member) -> [u64; NUMBERS] {
            let mut numbers = apart(member);
            numbers.rotate_left(STRESSES);
            numbers
        }
    }
    FirstStrengthForAll {
        fn stresses() -> [Stress; STRESSES] {
            [Stress::Bending; STRESSES]
        }
    }
    StressesReversed {
        fn stresses() -> [Stress; STRESSES] {
            let mut reversed = Paper::stresses();
            reversed.reverse();
            reversed
        }
    }
    ShearFirst {
        fn stresses() -> [Stress; STRESSES] {
            let mut rotated = Paper::stresses();
            rotated.rotate_right(1);
            rotated
        }
    }
    BendingLast {
        fn stresses() -> [Stress; STRESSES] {
            let mut rotated = Paper::stresses();
            rotated.rotate_left(1);
            rotated
        }
    }
}
