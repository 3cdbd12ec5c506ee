//! Verdicts of wrong rules, which the demand must refute.
use lvl_second::cells::Grade;
use lvl_second::rows::random::Random;
use lvl_second::sag::{Elastic, Figures, Sag};
use lvl_second::sag_demand::{Sagging, GROWN};
use lvl_second::sags::judged;
use lvl_second::{Cells, Member, Paper, Rules, SagRules};

/// Rules with one changed, whose verdicts the demand must refute on some beam.
macro_rules! wrong {
    ($($name:ident { $($rule:tt)* })*) => {
        $(struct $name;
        impl Rules for $name {}
        impl SagRules for $name { $($rule)* })*
    };
}

/// The right figures with another E.
fn limit_of(cells: &Cells, member: &Member, sag: &Sag, modulus: u64) -> Figures {
    Figures {
        limit_moment: Paper::limit_moment(modulus, member.width, member.height, sag),
        ..Paper::figures(cells, member, sag)
    }
}

wrong! {
    ModulusUp {
        fn design_modulus(elastic: &Elastic) -> u64 {
            (elastic.modulus * elastic.duration * elastic.moisture).div_ceil(10_000)
        }
    }
    LimitUp {
        fn limit_moment(design_modulus: u64, width: u64, height: u64, sag: &Sag) -> u64 {
            (4 * design_modulus * width * height.pow(3)).div_ceil(5 * sag.span * sag.limit)
        }
    }
    ShearDown {
        fn shear_part(height: u64, span: u64) -> u64 {
            19_200_000 * height.pow(2) / span.pow(2)
        }
    }
    ShearLeftOut {
        fn shear_part(_height: u64, _span: u64) -> u64 {
            0
        }
    }
    UtilisationDown {
        fn sag_utilisation(moment: u64, figures: &Figures) -> u64 {
            Paper::capped(u128::from(moment * figures.shear_factor / figures.limit_moment))
        }
    }
    ModulusOneHundredthLess {
        fn modulus(grade: Grade) -> u64 {
            Paper::modulus(grade) * 99 / 100
        }
    }
    ModulusOneHundredthMore {
        fn modulus(grade: Grade) -> u64 {
            Paper::modulus(grade) * 101 / 100
        }
    }
    RegimeGAsV {
        fn elastic_duration(code: u64) -> u64 {
            if code == 4 { 90 } else { Paper::elastic_duration(code) }
        }
    }
    VAsOne {
        fn elastic_duration(code: u64) -> u64 {
            if code == 3 { 100 } else { Paper::elastic_duration(code) }
        }
    }
    MoistureLeftOut {
        fn figures(cells: &Cells, member: &Member, sag: &Sag) -> Figures {
            let elastic = Paper::elastic(cells, member);
            limit_of(cells, member, sag, elastic.modulus * elastic.duration / 100)
        }
    }
    OfficeFactorApplied {
        fn figures(cells: &Cells, member: &Member, sag: &Sag) -> Figures {
            let modulus = Paper::design_modulus(&Paper::elastic(cells, member));
            limit_of(cells, member, sag, modulus * member.factors.office / 1000)
        }
    }
    AlwaysPass {
        fn sag_utilisation(_moment: u64, _figures: &Figures) -> u64 {
            1_000_000
        }
    }
    AlwaysFail {
        fn sag_utilisation(_moment: u64, _figures: &Figures) -> u64 {
            1_000_001
        }
    }
    PassesByOneMillionthMore {
        fn sag_utilisation(moment: u64, figures: &Figures) -> u64 {
            Paper::sag_utilisation(moment, figures) - 1
        }
    }
}

/// The beams on which verdicts are asked of the demand.
const BEAMS: usize = 50_000;

/// On how many generated beams the demand refutes the verdicts of these rules, at so many thousandths.
fn refuted_of<R: SagRules>(thousandths: u64) -> usize {
    let mut random = Random::new(23);
    let beams = (0..BEAMS).map(|_| judged::beam(&mut random));
    beams
        .filter(|beam| Paper::sag_fits(&beam.sag))
        .filter(|beam| {
            let member = R::sagging_member(&beam.cells).expect("the row is judged");
            let verdict = R::judge_sag(&beam.cells, &member, &beam.sag);
            let Sag {
                span,
                moment,
                limit,
            } = beam.sag;
            let exact = Sagging::of(&beam.cells, [span, moment, limit]);
            exact.keeps(verdict.passes, thousandths).is_err()
        })
        .count()
}

#[test]
fn wrong_rules_are_refuted_and_the_right_ones_are_not() {
    let refuted = [
        ("E up", refuted_of::<ModulusUp>(1005)),
        ("Mf up", refuted_of::<LimitUp>(1005)),
        ("shear down", refuted_of::<ShearDown>(1005)),
        ("no shear", refuted_of::<ShearLeftOut>(1005)),
        ("utilisation down", refuted_of::<UtilisationDown>(1005)),
        (
            "modulus 1 percent less",
            refuted_of::<ModulusOneHundredthLess>(1005),
        ),
        (
            "modulus 1 percent more",
            refuted_of::<ModulusOneHundredthMore>(1005),
        ),
        ("Г as В", refuted_of::<RegimeGAsV>(1005)),
        ("В as one", refuted_of::<VAsOne>(1005)),
        ("no moisture", refuted_of::<MoistureLeftOut>(1005)),
        ("office factor", refuted_of::<OfficeFactorApplied>(1005)),
        ("always pass", refuted_of::<AlwaysPass>(1005)),
        ("always fail", refuted_of::<AlwaysFail>(1005)),
        (
            "passes at 1,000,001",
            refuted_of::<PassesByOneMillionthMore>(1005),
        ),
    ];
    println!("beams of {BEAMS} by which wrong rules are refuted: {refuted:?}");
    for (name, beams) in refuted {
        assert!(beams >= 10, "{name} is refuted by {beams} beams only");
    }
    for thousandths in GROWN {
        assert_eq!(refuted_of::<Paper>(thousandths), 0);
    }
}
