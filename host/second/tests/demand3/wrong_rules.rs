//! Verdicts of wrong rules of the joint, which the demand must refute: of those copies that the comparison must see.
use lvl_second::demand3::keeps;
use lvl_second::rows::judged;
use lvl_second::rows::random::Random;
use lvl_second::{Paper, Rules};

/// Declares the copies of the file below as rules alone.
macro_rules! wrong_copies {
    (Rules, Checking: $($(#[$note:meta])* $name:ident { $($rule:tt)* })*) => {
        $($(#[$note])* pub struct $name;
        impl lvl_second::Rules for $name { $($rule)* })*
    };
}

#[allow(dead_code)]
#[path = "../wrong_copies/joint.rs"]
mod joint;

/// The joints on which verdicts are asked of the demand.
const JOINTS: usize = 100_000;

/// On how many generated joints the demand refutes the verdicts of these rules, at so many thousandths.
fn refuted_of<R: Rules>(thousandths: u64) -> usize {
    let mut random = Random::new(29);
    let joints = (0..JOINTS).map(|_| judged::row(&mut random, 1, true));
    joints
        .filter(|cells| {
            let verdict = R::check_row(cells).expect("the row is judged");
            keeps(cells, &verdict, thousandths).is_err()
        })
        .count()
}

#[test]
#[rustfmt::skip]
fn wrong_rules_are_refuted_and_the_right_ones_are_not() {
    let refuted = [
        ("bending by the whole product", refuted_of::<joint::DowelBendingByTheWholeProduct>(1005)),
        ("middle piece by the root", refuted_of::<joint::MiddlePieceByTheRoot>(1005)),
        ("side piece by the root", refuted_of::<joint::SidePieceByTheRoot>(1005)),
        ("bending without factors", refuted_of::<joint::DowelBendingWithoutFactors>(1005)),
        ("office factor without root", refuted_of::<joint::OfficeFactorWithoutRoot>(1005)),
        ("root at most one", refuted_of::<joint::RootAtMostOne>(1005)),
        ("root one more", refuted_of::<joint::RootOneMore>(1005)),
        ("bending up", refuted_of::<joint::DowelBendingUp>(1005)),
        ("crushing up", refuted_of::<joint::CrushingUp>(1005)),
        ("mode of the least term", refuted_of::<joint::ModeOfTheLeastTerm>(1005)),
        ("greatest mode", refuted_of::<joint::GreatestMode>(1005)),
        ("count down", refuted_of::<joint::CountDown>(1005)),
        ("count of full columns", refuted_of::<joint::CountOfFullColumns>(1005)),
    ];
    println!("joints of {JOINTS} by which wrong rules are refuted: {refuted:?}");
    for (name, joints) in refuted {
        assert!(joints >= 10, "{name} is refuted by {joints} joints only");
    }
    for thousandths in [1005, 1003] {
        assert_eq!(refuted_of::<Paper>(thousandths), 0);
    }
}
