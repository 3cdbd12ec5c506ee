//! Wrong copies of the rank of a verdict.
use lvl_addin::answer::Verdict;
use lvl_second::{KeptRules, Paper, Rank};
use std::cmp::Ordering;

/// The rank of a verdict, that of a yes-or-no fail as if it were used so much.
fn yes_or_no_as(utilisation: u32, verdict: &Verdict) -> Rank {
    if Paper::fails_yes_or_no(verdict) {
        Rank::Uses(utilisation)
    } else {
        Paper::rank(verdict)
    }
}

/// The rank of a verdict, its utilisation changed.
fn used(verdict: &Verdict, change: impl Fn(u32) -> u32) -> Rank {
    match Paper::rank(verdict) {
        Rank::Uses(utilisation) => Rank::Uses(change(utilisation)),
        Rank::YesOrNoFails => Rank::YesOrNoFails,
    }
}

fn order(one: &Verdict, other: &Verdict) -> Ordering {
    Paper::rank(one).cmp(&Paper::rank(other))
}

/// Whether a verdict ranks above another, equal ones of this sort by a number, the greater first.
fn equals_by<T: Ord>(
    one: &Verdict,
    other: &Verdict,
    are: impl Fn(&Verdict) -> bool,
    number: impl Fn(&Verdict) -> T,
) -> bool {
    match order(one, other) {
        Ordering::Equal if are(one) => number(one) > number(other),
        order => order == Ordering::Greater,
    }
}

fn by_strength(verdict: &Verdict) -> bool {
    !Paper::fails_yes_or_no(verdict)
}

wrong_copies! { KeptRules, Keeping:
    PassAboveAYesOrNoFail {
        fn outranks(one: &Verdict, other: &Verdict) -> bool {
            match (one.passes, other.passes) {
                (true, false) if Paper::fails_yes_or_no(other) => true,
                (false, true) if Paper::fails_yes_or_no(one) => false,
                _ => Paper::outranks(one, other),
            }
        }
    }
    FailByStrengthAboveAYesOrNoFail {
        fn outranks(one: &Verdict, other: &Verdict) -> bool {
            let fails_by_strength = |verdict: &Verdict| !verdict.passes && by_strength(verdict);
            match (fails_by_strength(one), fails_by_strength(other)) {
                (true, false) if Paper::fails_yes_or_no(other) => true,
                (false, true) if Paper::fails_yes_or_no(one) => false,
                _ => Paper::outranks(one, other),
            }
        }
    }
    YesOrNoFailByItsUtilisation {
        fn rank(verdict: &Verdict) -> Rank {
            Rank::Uses(verdict.utilisation)
        }
    }
    YesOrNoFailAsUsedJustUp {
        fn rank(verdict: &Verdict) -> Rank {
            yes_or_no_as(1_000_000, verdict)
        }
    }
    YesOrNoFailAsJustBeyond {
        fn rank(verdict: &Verdict) -> Rank {
            yes_or_no_as(1_000_001, verdict)
        }
    }
    YesOrNoFailAsNearlyAtTheCap {
        fn rank(verdict: &Verdict) -> Rank {
            yes_or_no_as(9_999_998, verdict)
        }
    }
    YesOrNoFailAsAtTheCap {
        fn rank(verdict: &Verdict) -> Rank {
            yes_or_no_as(9_999_999, verdict)
        }
    }
    FailsAllEqual {
        fn rank(verdict: &Verdict) -> Rank {
            if verdict.passes { Paper::rank(verdict) } else { Rank::YesOrNoFails }
        }
    }
    PassesAllEqual {
        fn rank(verdict: &Verdict) -> Rank {
            if verdict.passes { Rank::Uses(0) } else { Paper::rank(verdict) }
        }
    }
    FailsByStrengthAllEqual {
        fn rank(verdict: &Verdict) -> Rank {
            used(verdict, |utilisation| utilisation.min(1_000_001))
        }
    }
    CapRankedAsAYesOrNoFail {
        fn rank(verdict: &Verdict) -> Rank {
            if verdict.utilisation == 9_999_999 { Rank::YesOrNoFails } else { Paper::rank(verdict) }
        }
    }
    CapOneLess {
        fn rank(verdict: &Verdict) -> Rank {
            used(verdict, |utilisation| utilisation.min(9_999_998))
        }
    }
    LeastUtilisation {
        fn rank(verdict: &Verdict) -> Rank {
            used(verdict, |utilisation| u32::MAX - utilisation)
        }
    }
    LeastUtilisationOfPasses {
        fn rank(verdict: &Verdict) -> Rank {
            used(verdict, |utilisation| if utilisation <= 1_000_000 { 1_000_000 - utilisation } else { utilisation })
        }
    }
    LeastUtilisationOfFails {
        fn rank(verdict: &Verdict) -> Rank {
            used(verdict, |utilisation| if utilisation > 1_000_000 { 11_000_000 - utilisation } else { utilisation })
        }
    }
    UtilisationInTens {
        fn rank(verdict: &Verdict) -> Rank {
            used(verdict, |utilisation| utilisation / 10)
        }
    }
    UtilisationInThousandths {
        fn rank(verdict: &Verdict) -> Rank {
            used(verdict, |utilisation| utilisation / 1000)
        }
    }
    UtilisationInPercent {
        fn rank(verdict: &Verdict) -> Rank {
            used(verdict, |utilisation| utilisation / 10_000)
        }
    }
    UtilisationInTwos {
        fn rank(verdict: &Verdict) -> Rank {
            used(verdict, |utilisation| utilisation / 2)
        }
    }
    UtilisationOf16Bits {
        fn rank(verdict: &Verdict) -> Rank {
            used(verdict, |utilisation| utilisation % (1 << 16))
        }
    }
    UtilisationOf23Bits {
        fn rank(verdict: &Verdict) -> Rank {
            used(verdict, |utilisation| utilisation % (1 << 23))
        }
    }
    LowerYesOrNoCheckFirst {
        fn outranks(one: &Verdict, other: &Verdict) -> bool {
            equals_by(one, other, Paper::fails_yes_or_no, |verdict| 4 - verdict.check)
        }
    }
    HigherYesOrNoCheckFirst {
        fn outranks(one: &Verdict, other: &Verdict) -> bool {
            equals_by(one, other, Paper::fails_yes_or_no, |verdict| verdict.check)
        }
    }
    GreaterCountOfYesOrNoFailsFirst {
        fn outranks(one: &Verdict, other: &Verdict) -> bool {
            equals_by(one, other, Paper::fails_yes_or_no, |verdict| verdict.count)
        }
    }
    LesserCountOfYesOrNoFailsFirst {
        fn outranks(one: &Verdict, other: &Verdict) -> bool {
            equals_by(one, other, Paper::fails_yes_or_no, |verdict| u32::MAX - verdict.count)
        }
    }
    LowerStrengthCheckOfEqualsFirst {
        fn outranks(one: &Verdict, other: &Verdict) -> bool {
            equals_by(one, other, by_strength, |verdict| 11 - verdict.check)
        }
    }
    HigherStrengthCheckOfEqualsFirst {
        fn outranks(one: &Verdict, other: &Verdict) -> bool {
            equals_by(one, other, by_strength, |verdict| verdict.check)
        }
    }
    GreaterCountOfEqualsFirst {
        fn outranks(one: &Verdict, other: &Verdict) -> bool {
            equals_by(one, other, by_strength, |verdict| verdict.count)
        }
    }
    LesserCountOfEqualsFirst {
        fn outranks(one: &Verdict, other: &Verdict) -> bool {
            equals_by(one, other, by_strength, |verdict| u32::MAX - verdict.count)
        }
    }
    HigherCheckBeforeUtilisation {
        fn outranks(one: &Verdict, other: &Verdict) -> bool {
            let yes_or_no = Paper::fails_yes_or_no(one) || Paper::fails_yes_or_no(other);
            if yes_or_no { Paper::outranks(one, other) } else { one.check > other.check }
        }
    }
    PassesBeforeFailsByStrength {
        fn rank(verdict: &Verdict) -> Rank {
            used(verdict, |utilisation| if verdict.passes { 10_000_000 + utilisation } else { utilisation })
        }
    }
}
