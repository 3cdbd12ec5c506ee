//! One for each check whose fail has another rank, and each two checks of which one goes before the other among equals.
use super::{keep_all_but_the_schedule, slip, SLIP};
use crate::evidence::{Keeping, Wrong};
use lvl_addin::answer::Verdict;
use lvl_second::{KeptRules, Paper, Rank};

/// One check before another where two verdicts rank alike.
struct CheckBeforeItsEqual;
impl KeptRules for CheckBeforeItsEqual {
    fn outranks(one: &Verdict, other: &Verdict) -> bool {
        let (before, after, _) = SLIP.get();
        let here = (before, after) == (u64::from(one.check), u64::from(other.check));
        let equal = Paper::rank(one) == Paper::rank(other);
        here && equal || Paper::outranks(one, other)
    }
}

/// A fail on one yes-or-no check by its utilisation, which is 0.
struct ByItsUtilisation;
impl KeptRules for ByItsUtilisation {
    fn fails_yes_or_no(verdict: &Verdict) -> bool {
        Paper::fails_yes_or_no(verdict) && u64::from(verdict.check) != SLIP.get().0
    }
}

/// A fail on one yes-or-no check as if it were at the cap.
struct AtTheCap;
impl KeptRules for AtTheCap {
    fn rank(verdict: &Verdict) -> Rank {
        if Paper::fails_yes_or_no(verdict) && u64::from(verdict.check) == SLIP.get().0 {
            Rank::Uses(9_999_999)
        } else {
            Paper::rank(verdict)
        }
    }
}

/// A fail on one strength check with the yes-or-no fails.
struct AsAYesOrNoFail;
impl KeptRules for AsAYesOrNoFail {
    fn fails_yes_or_no(verdict: &Verdict) -> bool {
        let fails = !verdict.passes && u64::from(verdict.check) == SLIP.get().0;
        fails || Paper::fails_yes_or_no(verdict)
    }
}

keep_all_but_the_schedule!(
    CheckBeforeItsEqual,
    ByItsUtilisation,
    AtTheCap,
    AsAYesOrNoFail
);

pub fn copies() -> Vec<Wrong> {
    let mut copies = pairs(1..=4);
    copies.extend(pairs(5..=11));
    for check in 1..=4 {
        let name = format!("a fail on check {check} ranked by its utilisation");
        copies.push(slip::<Keeping, ByItsUtilisation>(name, check, 0, 0));
        let name = format!("a fail on check {check} ranked at the cap");
        copies.push(slip::<Keeping, AtTheCap>(name, check, 0, 0));
    }
    for check in 5..=11 {
        let name = format!("a fail on check {check} ranked as a yes-or-no fail");
        copies.push(slip::<Keeping, AsAYesOrNoFail>(name, check, 0, 0));
    }
    copies
}

/// Every two of these checks, in both orders.
fn pairs(checks: impl Iterator<Item = u64> + Clone) -> Vec<Wrong> {
    let mut copies = Vec::new();
    for before in checks.clone() {
        for after in checks.clone().filter(|&after| after != before) {
            let name = format!("check {before} before {after} where they rank alike");
            copies.push(slip::<Keeping, CheckBeforeItsEqual>(name, before, after, 0));
        }
    }
    copies
}
