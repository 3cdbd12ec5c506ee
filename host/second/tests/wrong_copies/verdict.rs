//! Wrong copies of utilisation, of the choice among the checks and of the verdict.
use lvl_addin::answer::{Refusal, Verdict};
use lvl_second::{Cells, Kind, Member, Paper, Rules};

/// The checks that a kind has in a wrong copy.
fn checks_but(kind: Kind, wrong_kind: Kind, wrong: &'static [u32]) -> &'static [u32] {
    if kind == wrong_kind {
        wrong
    } else {
        Paper::checks(kind)
    }
}

/// The verdict of some other row.
const ANOTHER: Verdict = Verdict {
    passes: true,
    check: 7,
    utilisation: 690_668,
    count: 0,
};

wrong_copies! { Rules, Checking:
    UtilisationDown {
        fn utilisation(force: u64, capacity: u64) -> u64 {
            Self::capped(1_000_000 * u128::from(force) / u128::from(capacity))
        }
    }
    UtilisationToNearest {
        fn utilisation(force: u64, capacity: u64) -> u64 {
            let (force, capacity) = (u128::from(force), u128::from(capacity));
            Self::capped((2_000_000 * force + capacity) / (2 * capacity))
        }
    }
    UtilisationInThousandths {
        fn utilisation(force: u64, capacity: u64) -> u64 {
            Self::capped((1000 * u128::from(force)).div_ceil(u128::from(capacity)) * 1000)
        }
    }
    UtilisationOf64Bits {
        fn utilisation(force: u64, capacity: u64) -> u64 {
            Self::capped(u128::from(force.wrapping_mul(1_000_000).div_ceil(capacity)))
        }
    }
    NoCap {
        fn capped(utilisation: u128) -> u64 {
            utilisation.min(u128::from(u32::MAX)) as u64
        }
    }
    CapOneLess {
        fn capped(utilisation: u128) -> u64 {
            Paper::capped(utilisation).min(9_999_998)
        }
    }
    CapOneMore {
        fn capped(utilisation: u128) -> u64 {
            utilisation.min(10_000_000) as u64
        }
    }
    /// Chooses by what the utilisations were before they were capped.
    CapAfterTheChoice {
        fn judge(member: &Member) -> Verdict {
            let verdict = NoCap::judge(member);
            Verdict { utilisation: verdict.utilisation.min(9_999_999), ..verdict }
        }
    }
    HighestOfEquals {
        fn governs(_check: u32, utilisation: u64, so_far: (u32, u64)) -> bool {
            utilisation >= so_far.1
        }
    }
    LeastGoverns {
        fn governs(check: u32, utilisation: u64, so_far: (u32, u64)) -> bool {
            so_far.0 == u32::MAX || !Paper::governs(check, utilisation, so_far)
        }
    }
    FirstFailureGoverns {
        fn governs(check: u32, utilisation: u64, so_far: (u32, u64)) -> bool {
            so_far.1 <= 1_000_000 && Paper::governs(check, utilisation, so_far)
        }
    }
    LastCheckGoverns {
        fn governs(_check: u32, _utilisation: u64, _so_far: (u32, u64)) -> bool {
            true
        }
    }
    PassLimitStrict {
        fn passes(utilisation: u64) -> bool {
            utilisation < 1_000_000
        }
    }
    PassLimitOneMore {
        fn passes(utilisation: u64) -> bool {
            utilisation <= 1_000_001
        }
    }
    SlendernessBeforeLayout {
        fn checks(kind: Kind) -> &'static [u32] {
            checks_but(kind, Kind::Tension, &[2, 3, 1, 4, 5, 6])
        }
    }
    JointLengthBeforeSlenderness {
        fn checks(kind: Kind) -> &'static [u32] {
            checks_but(kind, Kind::Tension, &[1, 4, 2, 3, 5, 6])
        }
    }
    JointLengthFirst {
        fn checks(kind: Kind) -> &'static [u32] {
            checks_but(kind, Kind::Tension, &[4, 1, 2, 3, 5, 6])
        }
    }
    SlendernessAcrossBFirstInTies {
        fn checks(kind: Kind) -> &'static [u32] {
            checks_but(kind, Kind::Tension, &[1, 3, 2, 4, 5, 6])
        }
    }
    SlendernessAcrossBFirstInStruts {
        fn checks(kind: Kind) -> &'static [u32] {
            checks_but(kind, Kind::Compression, &[3, 2, 9, 10])
        }
    }
    SlendernessAcrossBFirstInBentStruts {
        fn checks(kind: Kind) -> &'static [u32] {
            checks_but(kind, Kind::CompressionWithBending, &[3, 2, 8, 9, 10, 11])
        }
    }
    SlendernessAcrossBFirstInBentTies {
        fn checks(kind: Kind) -> &'static [u32] {
            checks_but(kind, Kind::TensionWithBending, &[3, 2, 8, 11])
        }
    }
    BentTiesBuckle {
        fn checks(kind: Kind) -> &'static [u32] {
            checks_but(kind, Kind::TensionWithBending, &[2, 3, 8, 9, 11])
        }
    }
    BentStrutsInBendingAlone {
        fn checks(kind: Kind) -> &'static [u32] {
            checks_but(kind, Kind::CompressionWithBending, &[2, 3, 7, 8, 9, 10, 11])
        }
    }
    Row4WithCheck3 {
        fn applies(check: u32, member: &Member) -> bool {
            check == 3 || Paper::applies(check, member)
        }
    }
    Row5WithoutCheck3 {
        fn applies(check: u32, member: &Member) -> bool {
            Paper::applies(check, member) && (check != 3 || member.table_16_row != Some(5))
        }
    }
    Row4WithoutCheck2 {
        fn applies(check: u32, member: &Member) -> bool {
            Paper::applies(if check == 2 { 3 } else { check }, member)
        }
    }
    NoCountWhereTheJointIsTooLong {
        fn count_at_failure(_check: u32, _count: u64) -> u64 {
            0
        }
    }
    CountWhereTheLayoutFails {
        fn count_at_failure(check: u32, count: u64) -> u64 {
            Paper::count_at_failure(if check == 1 { 4 } else { check }, count)
        }
    }
    CountWhereSlendernessFails {
        fn count_at_failure(check: u32, count: u64) -> u64 {
            Paper::count_at_failure(if check == 1 { 1 } else { 4 }, count)
        }
    }
    NoCountWhereStrengthFails {
        fn judge(member: &Member) -> Verdict {
            let verdict = Paper::judge(member);
            Verdict { count: if verdict.passes || verdict.check == 4 { verdict.count } else { 0 }, ..verdict }
        }
    }
    YesOrNoAtTheCap {
        fn judge(member: &Member) -> Verdict {
            let verdict = Paper::judge(member);
            Verdict { utilisation: if verdict.check <= 4 { 9_999_999 } else { verdict.utilisation }, ..verdict }
        }
    }
    PassesEveryRow {
        fn judge(member: &Member) -> Verdict {
            Verdict { passes: true, ..Paper::judge(member) }
        }
    }
    FailsEveryRow {
        fn judge(member: &Member) -> Verdict {
            Verdict { passes: false, ..Paper::judge(member) }
        }
    }
    RefusesEveryRow {
        fn check_row(_cells: &Cells) -> Result<Verdict, Refusal> {
            Err(Refusal { number: 2, cell: 1 })
        }
    }
    RepeatsOneVerdict {
        fn check_row(cells: &Cells) -> Result<Verdict, Refusal> {
            Paper::check_row(cells).map(|_| ANOTHER)
        }
    }
}
