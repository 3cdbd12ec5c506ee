//! The demand on floor beams as it keeps right verdicts and refutes wrong ones.
use lvl_addin::answer::{Refusal, Verdict};
use lvl_addin::floor_beam::BeamVerdict;
use lvl_second::beams::judged;
use lvl_second::beams::{floor_beam, Numbers};
use lvl_second::floor_beam::{FloorBeam, Loads};
use lvl_second::floor_demand::keeps;
use lvl_second::rows::random::Random;
use lvl_second::{FloorRules, Paper, Rules};

/// Worked row A's section: 75 by 300, K45, dry. In regime В MR is 28,957,500 N·mm and the shear capacity 40,590 N,
/// both without rounding.
fn beam(first: u64, second: u64, span: u64) -> Numbers {
    [first, second, span, 1, 10, 1000, 75, 300]
}

fn verdict(passes: bool, check: u32) -> Verdict {
    Verdict {
        passes,
        check,
        utilisation: 1_000_000,
        count: 0,
    }
}

/// Holds the demand to keep a verdict.
fn kept(beam: Numbers, passes: bool, check: u32) {
    assert_eq!(keeps(&beam, &verdict(passes, check)), Ok(()), "{beam:?}");
}

/// Holds the demand to refute a verdict for this reason.
fn refuted(beam: Numbers, passes: bool, check: u32, why: &str) {
    let message = keeps(&beam, &verdict(passes, check)).expect_err("the verdict is wrong");
    assert!(message.contains(why), "{beam:?}: {message}");
}

/// Over 4 m, M is 2000 q: up to q = 14,478.75 the beam bears it, and up to 14,406.7… at 1.005.
#[test]
fn bending_at_its_limit() {
    kept(beam(0, 14_478, 4000), true, 7);
    refuted(beam(0, 14_479, 4000), true, 7, "check 7 fails unrounded");
    kept(beam(0, 14_407, 4000), false, 7);
    refuted(beam(0, 14_406, 4000), false, 7, "check 7, which holds");
}

/// Over 1 m, Q is q / 2: up to q = 81,180 the beam bears it, and up to 80,776.1… at 1.005.
#[test]
fn shear_at_its_limit() {
    kept(beam(0, 81_180, 1000), true, 8);
    refuted(beam(0, 81_181, 1000), true, 8, "check 8 fails unrounded");
    kept(beam(0, 80_777, 1000), false, 8);
    refuted(beam(0, 80_776, 1000), false, 8, "check 8, which holds");
    refuted(beam(0, 81_181, 1000), false, 7, "check 7, which holds");
}

/// Above 80 percent MR is 23,253,750 N·mm: up to q = 11,626.875.
#[test]
fn the_regime_decides() {
    kept(beam(9303, 2324, 4000), false, 7);
    refuted(beam(9303, 2324, 4000), true, 7, "check 7 fails unrounded");
    kept(beam(9300, 2325, 4000), true, 7);
    refuted(beam(9300, 2325, 4000), false, 7, "check 7, which holds");
}

/// 34 by 60 bears 525,096 N·mm, and 8573 N/m over 0.7 m give a quarter more: M rounded down would pass.
#[test]
fn a_quarter_of_a_newton_millimetre_too_much() {
    let beam = |total| [0, total, 700, 1, 10, 1000, 34, 60];
    kept(beam(8572), true, 7);
    refuted(beam(8573), true, 7, "check 7 fails unrounded");
}

#[test]
fn what_no_beam_has_is_refuted() {
    for check in [0, 5, 9, 11] {
        refuted(beam(0, 50_000, 4000), false, check, "which no beam has");
    }
    let dowels = Verdict {
        count: 1,
        ..verdict(true, 7)
    };
    assert!(keeps(&beam(0, 100, 4000), &dowels).is_err_and(|why| why.contains("dowels")));
}

/// Rules with one changed, whose verdicts the demand must refute on some beam.
macro_rules! wrong {
    ($($name:ident { $($rule:tt)* })*) => {
        $(struct $name;
        impl Rules for $name {}
        impl FloorRules for $name { $($rule)* })*
    };
}

wrong! {
    MomentDown {
        fn beam_moment(total: u64, span: u64) -> u64 {
            total * span * span / 8000
        }
    }
    ShearDown {
        fn beam_shear(total: u64, span: u64) -> u64 {
            total * span / 2000
        }
    }
    MomentTooGreat {
        fn beam_moment(total: u64, span: u64) -> u64 {
            Paper::beam_moment(total, span) * 101 / 100
        }
    }
    MomentTooSmall {
        fn beam_moment(total: u64, span: u64) -> u64 {
            (Paper::beam_moment(total, span) * 99 / 100).max(1)
        }
    }
    ShearTooGreat {
        fn beam_shear(total: u64, span: u64) -> u64 {
            Paper::beam_shear(total, span) * 101 / 100
        }
    }
    ShearTooSmall {
        fn beam_shear(total: u64, span: u64) -> u64 {
            Paper::beam_shear(total, span) * 99 / 100
        }
    }
    EightyPercentIsLongTerm {
        fn regime(loads: &Loads) -> u64 {
            if 5 * loads.first >= 4 * Paper::total(loads) { 2 } else { 3 }
        }
    }
    EightyOnePercent {
        fn regime(loads: &Loads) -> u64 {
            if 100 * loads.first > 81 * Paper::total(loads) { 2 } else { 3 }
        }
    }
    AlwaysPass {
        fn check_beam(beam: &FloorBeam) -> Result<BeamVerdict, Refusal> {
            Paper::check_beam(beam).map(|judged| changed(judged, |verdict| verdict.passes = true))
        }
    }
    AlwaysFail {
        fn check_beam(beam: &FloorBeam) -> Result<BeamVerdict, Refusal> {
            Paper::check_beam(beam).map(|judged| changed(judged, |verdict| verdict.passes = false))
        }
    }
    OtherCheckNamed {
        fn check_beam(beam: &FloorBeam) -> Result<BeamVerdict, Refusal> {
            Paper::check_beam(beam).map(|judged| changed(judged, |verdict| verdict.check = 15 - verdict.check))
        }
    }
}

fn changed(mut judged: BeamVerdict, change: impl Fn(&mut Verdict)) -> BeamVerdict {
    change(&mut judged.verdict);
    judged
}

/// The beams on which verdicts are asked of the demand.
const BEAMS: usize = 50_000;

/// On how many generated beams the demand refutes the verdicts of these rules.
fn refuted_of<R: FloorRules>() -> usize {
    let mut random = Random::new(12);
    let beams = (0..BEAMS).map(|_| judged::beam(&mut random));
    beams
        .filter(|beam| Paper::loads_fit(&floor_beam(beam).loads))
        .filter(|beam| {
            let judged = R::check_beam(&floor_beam(beam)).expect("the beam is judged");
            keeps(beam, &judged.verdict).is_err()
        })
        .count()
}

#[test]
fn wrong_rules_are_refuted_and_the_right_ones_are_not() {
    let refuted = [
        ("M down", refuted_of::<MomentDown>()),
        ("Q down", refuted_of::<ShearDown>()),
        ("M too great", refuted_of::<MomentTooGreat>()),
        ("M too small", refuted_of::<MomentTooSmall>()),
        ("Q too great", refuted_of::<ShearTooGreat>()),
        ("Q too small", refuted_of::<ShearTooSmall>()),
        ("80 percent in Б", refuted_of::<EightyPercentIsLongTerm>()),
        ("81 percent", refuted_of::<EightyOnePercent>()),
        ("always pass", refuted_of::<AlwaysPass>()),
        ("always fail", refuted_of::<AlwaysFail>()),
        ("other check named", refuted_of::<OtherCheckNamed>()),
    ];
    println!("beams of {BEAMS} by which wrong rules are refuted: {refuted:?}");
    for (name, beams) in refuted {
        assert!(beams >= 10, "{name} is refuted by {beams} beams only");
    }
    assert_eq!(refuted_of::<Paper>(), 0);
}
