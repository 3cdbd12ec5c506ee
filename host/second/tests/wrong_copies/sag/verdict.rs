//! Wrong copies of the verdict.
use lvl_addin::answer::Refusal;
use lvl_addin::sag::SagVerdict;
use lvl_second::cells::{cell, MOMENT};
use lvl_second::sag::Sag;
use lvl_second::{Cells, Member, Paper, Rules, SagRules};

/// The verdict on some other beam.
const ANOTHER: SagVerdict = SagVerdict {
    passes: true,
    utilisation: 718_793,
    modulus: 12_000,
    elastic_duration: 90,
    moisture: 100,
    design_modulus: 10_800,
    limit_moment: 14_580_000,
    shear_factor: 1_048_000,
};

/// The right verdict, but for whether it is a pass.
fn passing_if(
    cells: &Cells,
    member: &Member,
    sag: &Sag,
    passes: impl Fn(&SagVerdict) -> bool,
) -> SagVerdict {
    let right = Paper::judge_sag(cells, member, sag);
    SagVerdict {
        passes: passes(&right),
        ..right
    }
}

/// The verdict on another moment.
fn with_moment(cells: &Cells, member: &Member, sag: &Sag, moment: u64) -> SagVerdict {
    Paper::judge_sag(cells, member, &Sag { moment, ..*sag })
}

/// Whether the sag is within its limit where a moment and figures count as they are.
fn holds(moment: u64, shear_factor: u64, limit_moment: u64) -> bool {
    u128::from(moment) * u128::from(shear_factor) <= 1_000_000 * u128::from(limit_moment)
}

/// Whether it is with nothing rounded, for so many thousandths of the moment.
fn holds_unrounded(verdict: &SagVerdict, member: &Member, sag: &Sag, thousandths: u64) -> bool {
    let [width, height] = [member.width, member.height].map(u128::from);
    let [span, limit] = [sag.span, sag.limit].map(u128::from);
    let modulus = u128::from(verdict.modulus * verdict.elastic_duration * verdict.moisture);
    let enlarged = u128::from(sag.moment * thousandths)
        * (1_000_000 * span * span + 19_200_000 * height * height);
    let allowed = 1_000_000 * 1000 * 4 * modulus * width * height.pow(3);
    enlarged * 50_000 * limit <= allowed * span
}

wrong_copies! { SagRules, Sagging:
    PassesUpTo999999 {
        fn judge_sag(cells: &Cells, member: &Member, sag: &Sag) -> SagVerdict {
            passing_if(cells, member, sag, |right| right.utilisation <= 999_999)
        }
    }
    PassesUpTo1000001 {
        fn judge_sag(cells: &Cells, member: &Member, sag: &Sag) -> SagVerdict {
            passing_if(cells, member, sag, |right| right.utilisation <= 1_000_001)
        }
    }
    PassesUpToTheGrownLimit {
        fn judge_sag(cells: &Cells, member: &Member, sag: &Sag) -> SagVerdict {
            passing_if(cells, member, sag, |right| right.utilisation <= 1_005_000)
        }
    }
    PassesByMoreThanOneOnly {
        fn judge_sag(cells: &Cells, member: &Member, sag: &Sag) -> SagVerdict {
            passing_if(cells, member, sag, |right| {
                u128::from(sag.moment) * u128::from(right.shear_factor) < 1_000_000 * u128::from(right.limit_moment)
            })
        }
    }
    PassesUnrounded {
        fn judge_sag(cells: &Cells, member: &Member, sag: &Sag) -> SagVerdict {
            passing_if(cells, member, sag, |right| holds_unrounded(right, member, sag, 1000))
        }
    }
    PassesUnroundedWithAGrownMoment {
        fn judge_sag(cells: &Cells, member: &Member, sag: &Sag) -> SagVerdict {
            passing_if(cells, member, sag, |right| holds_unrounded(right, member, sag, 1005))
        }
    }
    PassesByTheModulusUp {
        fn judge_sag(cells: &Cells, member: &Member, sag: &Sag) -> SagVerdict {
            passing_if(cells, member, sag, |right| {
                let up = u64::from(right.modulus * right.elastic_duration * right.moisture).div_ceil(10_000);
                let limit = Paper::limit_moment(up, member.width, member.height, sag);
                holds(sag.moment, right.shear_factor.into(), limit)
            })
        }
    }
    PassesByTheLimitUp {
        fn judge_sag(cells: &Cells, member: &Member, sag: &Sag) -> SagVerdict {
            passing_if(cells, member, sag, |right| {
                let product = 4 * u64::from(right.design_modulus) * member.width * member.height.pow(3);
                holds(sag.moment, right.shear_factor.into(), product.div_ceil(5 * sag.span * sag.limit))
            })
        }
    }
    PassesByShearDown {
        fn judge_sag(cells: &Cells, member: &Member, sag: &Sag) -> SagVerdict {
            passing_if(cells, member, sag, |right| {
                let part = 19_200_000 * member.height.pow(2) / sag.span.pow(2);
                holds(sag.moment, 1_000_000 + part, right.limit_moment)
            })
        }
    }
    PassesWithoutShear {
        fn judge_sag(cells: &Cells, member: &Member, sag: &Sag) -> SagVerdict {
            passing_if(cells, member, sag, |right| holds(sag.moment, 1_000_000, right.limit_moment))
        }
    }
    PassesWithItsRowOnly {
        fn judge_sag(cells: &Cells, member: &Member, sag: &Sag) -> SagVerdict {
            passing_if(cells, member, sag, |right| right.passes && Paper::judge(member).passes)
        }
    }
    PassesWithItsRow {
        fn judge_sag(cells: &Cells, member: &Member, sag: &Sag) -> SagVerdict {
            passing_if(cells, member, sag, |_| Paper::judge(member).passes)
        }
    }
    UtilisationOfTheRow {
        fn judge_sag(cells: &Cells, member: &Member, sag: &Sag) -> SagVerdict {
            let row = Paper::judge(member);
            SagVerdict { passes: row.passes, utilisation: row.utilisation, ..Paper::judge_sag(cells, member, sag) }
        }
    }
    GreaterUtilisationOfRowAndSag {
        fn judge_sag(cells: &Cells, member: &Member, sag: &Sag) -> SagVerdict {
            let right = Paper::judge_sag(cells, member, sag);
            let row = Paper::judge(member);
            if row.utilisation > right.utilisation {
                SagVerdict { passes: row.passes, utilisation: row.utilisation, ..right }
            } else {
                right
            }
        }
    }
    MomentOfTheRow {
        fn judge_sag(cells: &Cells, member: &Member, sag: &Sag) -> SagVerdict {
            with_moment(cells, member, sag, member.moment)
        }
    }
    GreaterMomentOfRowAndSag {
        fn judge_sag(cells: &Cells, member: &Member, sag: &Sag) -> SagVerdict {
            with_moment(cells, member, sag, sag.moment.max(cell(cells, MOMENT).unwrap_or(0)))
        }
    }
    MomentByOfficeFactor {
        fn judge_sag(cells: &Cells, member: &Member, sag: &Sag) -> SagVerdict {
            with_moment(cells, member, sag, (sag.moment * 1000).div_ceil(member.factors.office))
        }
    }
    MomentOneLess {
        fn judge_sag(cells: &Cells, member: &Member, sag: &Sag) -> SagVerdict {
            with_moment(cells, member, sag, sag.moment - 1)
        }
    }
    MomentOneMore {
        fn judge_sag(cells: &Cells, member: &Member, sag: &Sag) -> SagVerdict {
            with_moment(cells, member, sag, sag.moment + 1)
        }
    }
    WidthAndHeightExchanged {
        fn judge_sag(cells: &Cells, member: &Member, sag: &Sag) -> SagVerdict {
            let turned = Member { width: member.height, height: member.width, ..*member };
            Paper::judge_sag(cells, &turned, sag)
        }
    }
    PassesForGood {
        fn judge_sag(cells: &Cells, member: &Member, sag: &Sag) -> SagVerdict {
            passing_if(cells, member, sag, |_| true)
        }
    }
    FailsForGood {
        fn judge_sag(cells: &Cells, member: &Member, sag: &Sag) -> SagVerdict {
            passing_if(cells, member, sag, |_| false)
        }
    }
    PassAndFailExchanged {
        fn judge_sag(cells: &Cells, member: &Member, sag: &Sag) -> SagVerdict {
            passing_if(cells, member, sag, |right| !right.passes)
        }
    }
    RefusesForGood {
        fn check_sag(_row: &[u8], _sag: &[u8]) -> Result<SagVerdict, Refusal> {
            Err(Paper::sag_refusal())
        }
    }
    RefusesEveryKind {
        fn check_sag(_row: &[u8], _sag: &[u8]) -> Result<SagVerdict, Refusal> {
            Err(Paper::kind_refusal())
        }
    }
    RefusesWhatFails {
        fn check_sag(row: &[u8], sag: &[u8]) -> Result<SagVerdict, Refusal> {
            match Paper::check_sag(row, sag)? {
                right if right.passes => Ok(right),
                _ => Err(Paper::sag_refusal()),
            }
        }
    }
    RepeatsOneVerdict {
        fn check_sag(row: &[u8], sag: &[u8]) -> Result<SagVerdict, Refusal> {
            Paper::check_sag(row, sag).map(|_| ANOTHER)
        }
    }
}
