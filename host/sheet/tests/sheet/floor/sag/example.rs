//! The example asks for the sag of many of its beams, and shows every way in which both verdicts can come out.
use super::{asking, greatest_moment, judged, sag_cells, sag_of};
use crate::floor::{cells_of, example, example_with_sag, floor, table};
use lvl_addin::entry;

/// A beam of the example by how its name begins.
fn beam(name: &str) -> String {
    let example = example_with_sag();
    let is_named = |line: &&str| line.trim_start_matches('"').starts_with(name);
    example.lines().find(is_named).unwrap().to_owned()
}

/// How strength and sag of a beam come out, if they are judged, and which of them has the greater utilisation.
fn verdicts(name: &str) -> (bool, Option<bool>, &'static str) {
    let beam = beam(name);
    let strength = entry::check_floor_beam(&cells_of(&beam)).unwrap();
    let sag = sag_of(&beam, &strength).expect("asked for");
    let utilisation = strength.verdict.utilisation;
    let governing = match sag {
        Ok(sag) if sag.utilisation > utilisation => "sag",
        _ => "strength",
    };
    (
        strength.verdict.passes,
        sag.ok().map(|sag| sag.passes),
        governing,
    )
}

#[test]
fn every_way_in_which_both_come_out() {
    for (name, expected) in [
        ("B1 ", (true, Some(true), "sag")),
        ("B4 ", (true, Some(false), "sag")),
        ("B14 ", (false, Some(false), "sag")),
        ("B16 ", (true, Some(true), "strength")),
        ("B20 ", (true, None, "strength")),
        ("B21 ", (false, Some(true), "strength")),
        ("B22 ", (false, None, "strength")),
    ] {
        assert_eq!(verdicts(name), expected, "{name}");
    }
    let out = table(example_with_sag()).out;
    for (name, parts) in [
        ("B1 ", ["pass", "pass", "pass", "sag, 7.34 and 7.35"]),
        ("B4 ", ["pass", "FAIL", "FAIL", "sag, 7.34 and 7.35"]),
        ("B14 ", ["FAIL", "FAIL", "FAIL", "sag, 7.34 and 7.35"]),
        ("B16 ", ["pass", "pass", "pass", "bending, 7.9"]),
        (
            "B20 ",
            ["pass", "refused", "refused", "refusal 10, limit n: blank (wanted: 100 to 500)"],
        ),
        ("B21 ", ["FAIL", "pass", "FAIL", "shear, 7.10"]),
        (
            "B22 ",
            ["FAIL", "refused", "FAIL", "shear, 7.10; sag: refusal 10, unfactored moment Mn: blank (wanted: 1 to 10000000000 N·mm)"],
        ),
    ] {
        let line = out.lines().find(|line| line.starts_with(name)).unwrap();
        let is_verdict = |word: &&str| ["pass", "FAIL", "refused"].contains(word);
        let shown: Vec<&str> = line.split_whitespace().filter(is_verdict).take(3).collect();
        assert_eq!(shown, parts[..3], "{line}");
        assert!(line.ends_with(&format!("  {}", parts[3])), "{line}");
    }
}

/// One has the greatest Mn that passes, and another one N·mm too much.
#[test]
fn two_at_the_turn() {
    for (name, passes) in [("B17 ", true), ("B15 ", false)] {
        let typed = beam(name);
        let [_, moment, n] = sag_cells(&typed).map(Option::unwrap);
        assert_eq!(judged(&typed).passes, passes, "{name}");
        let (strength, _) = typed.rsplit_once(',').unwrap();
        let (strength, _) = strength.rsplit_once(',').unwrap();
        let over_turn = if passes { moment + 1.0 } else { moment - 1.0 };
        let neighbour = judged(&asking(strength, over_turn, n));
        assert_eq!(neighbour.passes, !passes, "{name}");
    }
    assert!(judged(&super::beam(greatest_moment(200), 200)).passes);
}

/// The factor for its service life by which a beam's Mn is divided: the office factor, which holds it too, is none of the sag's.
fn service_life(beam: &str) -> f64 {
    let [.., factor, _, _] = cells_of(beam);
    let is_divided = beam.contains("75 years, Mn/0.90");
    assert_eq!(is_divided, factor < Some(1000.0), "{beam}");
    if is_divided {
        0.90
    } else {
        1.0
    }
}

/// A moment divided, up, as its name says: of a moment of whole thousands, as those of the others are.
#[test]
fn one_for_a_longer_service_life() {
    let typed = beam("B24 ");
    let [_, moment, _] = sag_cells(&typed).map(Option::unwrap);
    let of_unfactored_loads = (moment * service_life(&typed) / 1000.0).round() * 1000.0;
    assert_eq!((of_unfactored_loads / 0.90).ceil(), moment);
    let (before_moment, _) = typed.rsplit_once(&format!(",{moment},")).unwrap();
    let verdicts = [of_unfactored_loads, moment].map(|moment| {
        let line = asking(before_moment, moment, 200);
        judged(&line).passes
    });
    assert_eq!(verdicts, [true, false]);
}

#[test]
fn most_beams_ask_with_a_moment_below_that_of_design_loads() {
    let example = example_with_sag();
    let beams = example.lines().skip(1);
    let mut asking = 0;
    for beam in beams {
        let [_, moment, n] = sag_cells(beam);
        asking += usize::from(moment.is_some() || n.is_some());
        if let (Some(moment), Ok(found)) = (moment, entry::check_floor_beam(&cells_of(beam))) {
            let of_unfactored_loads = moment * service_life(beam);
            let ratio = found.moment as f64 / of_unfactored_loads;
            assert!((1.15..=1.35).contains(&ratio), "{beam}: {ratio}");
        }
        let usual = [150.0, 200.0, 250.0];
        assert!(n.map_or(true, |n| usual.contains(&n)), "{beam}");
    }
    assert!(asking > 38 / 2, "{asking}");
}

#[test]
fn verdicts_on_strength_are_those_without_sag() {
    let with_sag = floor(example_with_sag(), &["--csv"]);
    let without = floor(example(), &["--csv"]);
    for (with_sag_line, line) in with_sag.out.lines().zip(without.out.lines()).skip(1) {
        let of =
            |out: &str, line: &str, heading: &str| super::answer(out, line, heading).to_owned();
        for [beside, own] in [
            ["strength check", "check"],
            [
                "strength utilisation in millionths",
                "utilisation in millionths",
            ],
            ["moment M in N·mm", "moment M in N·mm"],
        ] {
            let shown = of(&with_sag.out, with_sag_line, beside);
            assert_eq!(shown, of(&without.out, line, own), "{line}");
        }
    }
    let run = table(example_with_sag());
    assert_eq!((run.code, run.err.as_str()), (1, ""));
    assert_eq!(run.summary(), "38 rows: 14 passed, 13 failed, 11 refused");
    for remark in [
        "\nStrength is for design loads, by bending (7) or shear (8). Sag is for Mn, ",
        "\nMn is the greatest moment of the beam's unfactored loads, the same loads as typed, with their safety factors at 1.\n",
        "\nWhere neither Mn nor n is filled sag is not checked. Lateral stability is not checked.\n",
    ] {
        assert!(run.out.contains(remark), "{}", run.out);
    }
}
