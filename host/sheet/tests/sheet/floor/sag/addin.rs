//! What is shown of strength and sag is the add-in's, and a checker finds each figure again from those beside it.
use super::{answer, csv, sag_of};
use crate::floor::{cells_of, example_with_sag, floor};
use lvl_addin::answer::Refusal;
use lvl_addin::entry;
use lvl_addin::floor_beam::BeamVerdict;
use lvl_addin::sag::SagVerdict;

/// Beams of each grade, moisture and regime, with limits and moments within their ranges, at their ends and outside.
fn spread() -> Vec<String> {
    let mut beams = Vec::new();
    for (place, moisture) in [0, 12, 13, 15, 16, 20, 21, 60].into_iter().enumerate() {
        for grade in [1, 2, 3] {
            for loads in ["1600,400", "1601,400"] {
                for (moment, n) in [
                    ("1", "100"),
                    ("1234567", "150"),
                    ("3210987", "199"),
                    ("10000000000", "500"),
                    ("0", "200"),
                    ("10000000001", "200"),
                    ("1234567", "99"),
                    ("1234567", "501"),
                    ("", "200"),
                    ("1234567", ""),
                    ("1.5", "200"),
                    ("x", "200"),
                    ("1234567", "-1"),
                    ("", ""),
                ] {
                    let (span, height) = (1200 + 450 * place, 140 + 20 * grade);
                    let strength = format!("{loads},{span},{grade},{moisture},900,45,{height}");
                    beams.push(format!("B,{strength},{moment},{n}"));
                }
            }
        }
    }
    beams
}

/// The beam's own verdict, check and utilisation, or refusal, as the issue has them.
fn own(strength: &BeamVerdict, sag: Option<Result<SagVerdict, Refusal>>) -> [String; 5] {
    let verdict = strength.verdict;
    let word = |passes: bool| if passes { "pass" } else { "fail" }.to_owned();
    let judged = |passes: bool, check: String, utilisation: u32| {
        let [no_refusal, no_cell] = [(); 2].map(|()| String::new());
        let utilisation = utilisation.to_string();
        [word(passes), check, utilisation, no_refusal, no_cell]
    };
    let check = verdict.check.to_string();
    match sag {
        Some(Ok(sag)) if sag.utilisation > verdict.utilisation => {
            let passes = verdict.passes && sag.passes;
            judged(passes, "sag".to_owned(), sag.utilisation)
        }
        Some(Ok(sag)) => judged(verdict.passes && sag.passes, check, verdict.utilisation),
        Some(Err(refusal)) if verdict.passes => {
            let [number, cell] = [refusal.number, refusal.cell].map(|number| number.to_string());
            [
                "refused".to_owned(),
                String::new(),
                String::new(),
                number,
                cell,
            ]
        }
        Some(Err(_)) | None => judged(verdict.passes, check, verdict.utilisation),
    }
}

/// A line's answers on the verdict, on strength and on sag, without the reason in words.
fn shown(out: &str, line: &str) -> Vec<String> {
    const HEADINGS: [&str; 17] = [
        "verdict",
        "check",
        "utilisation in millionths",
        "refusal",
        "refused cell",
        "strength verdict",
        "strength check",
        "strength utilisation in millionths",
        "sag verdict",
        "sag utilisation in millionths",
        "sag refusal",
        "modulus of elasticity in MPa",
        "e in hundredths",
        "w in hundredths",
        "design modulus E in MPa",
        "limit moment Mf in N·mm",
        "shear factor in millionths",
    ];
    let shown = HEADINGS.map(|heading| answer(out, line, heading).to_owned());
    shown.to_vec()
}

/// The same by the add-in itself.
fn expected(beam: &str) -> Vec<String> {
    let words = |text: &str| text.split(',').map(str::to_owned).collect::<Vec<_>>();
    let strength = match entry::check_floor_beam(&cells_of(beam)) {
        Ok(found) => found,
        Err(Refusal { number, cell }) => {
            return words(&format!("refused,,,{number},{cell},,,,,,,,,,,,"))
        }
    };
    let sag = sag_of(beam, &strength);
    let word = |passes: bool| if passes { "pass" } else { "fail" };
    let of_strength = strength.verdict;
    let (passes, check, utilisation) = (
        word(of_strength.passes),
        of_strength.check,
        of_strength.utilisation,
    );
    let of_sag = match sag {
        None => ",,,,,,,,".to_owned(),
        Some(Err(refusal)) => format!("refused,,{},,,,,,", refusal.number),
        Some(Ok(sag)) => format!(
            "{},{},,{},{},{},{},{},{}",
            word(sag.passes),
            sag.utilisation,
            sag.modulus,
            sag.elastic_duration,
            sag.moisture,
            sag.design_modulus,
            sag.limit_moment,
            sag.shear_factor
        ),
    };
    let beside = words(&format!("{passes},{check},{utilisation},{of_sag}"));
    [own(&strength, sag).to_vec(), beside].concat()
}

#[test]
fn of_the_example_and_of_many_more() {
    let example = example_with_sag();
    let beams = spread();
    let many = csv(&beams);
    let of_the_example = floor(&example, &["--csv"]);
    let more = many.out.lines().skip(1).zip(&beams);
    let mut refused = 0;
    for (line, beam) in more {
        let expected = expected(beam);
        refused += usize::from(expected[10] == "10");
        assert_eq!(shown(&many.out, line), expected, "{beam}");
    }
    // Nine of fourteen pairs of Mn and n cannot be judged.
    assert_eq!((beams.len(), refused), (8 * 3 * 2 * 14, 8 * 3 * 2 * 9));
    for (line, beam) in of_the_example.out.lines().zip(example.lines()).skip(1) {
        assert_eq!(shown(&of_the_example.out, line), expected(beam), "{beam}");
    }
}

/// By the formulas of request 3, from the sheet's own columns.
#[test]
fn figures_follow_from_those_beside_them() {
    let beams = spread();
    let out = csv(&beams).out;
    let mut judged = 0;
    for (line, beam) in out.lines().skip(1).zip(&beams) {
        if !matches!(answer(&out, line, "sag verdict"), "pass" | "fail") {
            continue;
        }
        judged += 1;
        let number = |heading: &str| answer(&out, line, heading).parse::<u128>().unwrap();
        let typed: Vec<u128> = beam[2..]
            .split(',')
            .map(|cell| cell.parse().unwrap())
            .collect();
        let [_, _, span, grade, moisture, _, width, height, moment, n] = typed[..] else {
            panic!("{beam}");
        };
        assert_eq!(
            number("modulus of elasticity in MPa"),
            [12000, 11000, 10000][grade as usize - 1]
        );
        let regime = answer(&out, line, "regime");
        assert_eq!(
            number("e in hundredths"),
            if regime == "Б" { 75 } else { 90 }
        );
        let w = match moisture {
            0..=12 => 100,
            13..=15 => 90,
            16..=20 => 85,
            _ => 75,
        };
        assert_eq!(number("w in hundredths"), w);
        let modulus =
            number("modulus of elasticity in MPa") * number("e in hundredths") * w / 10_000;
        assert_eq!(number("design modulus E in MPa"), modulus, "{beam}");
        let limit = 4 * modulus * width * height.pow(3) / (5 * span * n);
        assert_eq!(number("limit moment Mf in N·mm"), limit, "{beam}");
        let factor = 1_000_000 + (19_200_000 * height.pow(2)).div_ceil(span.pow(2));
        assert_eq!(number("shear factor in millionths"), factor, "{beam}");
        let utilisation = (moment * factor).div_ceil(limit).min(9_999_999);
        assert_eq!(
            number("sag utilisation in millionths"),
            utilisation,
            "{beam}"
        );
        let verdict = if utilisation <= 1_000_000 {
            "pass"
        } else {
            "fail"
        };
        assert_eq!(answer(&out, line, "sag verdict"), verdict, "{beam}");
    }
    assert_eq!(judged, 8 * 3 * 2 * 4);
}
