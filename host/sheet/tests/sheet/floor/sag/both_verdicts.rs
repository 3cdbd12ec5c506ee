//! The verdict on strength and sag together: it fails if either fails, and the greater utilisation governs.
use super::{answer, asking, beam, csv, greatest_moment, judged, sag_of, table};
use crate::floor::{cells_of, BEAM};
use lvl_addin::entry;

/// It fails in strength: regime Б.
const FAILS: &str = "B2,1601,400,4200,1,12,1000,45,160";

/// In percent, up to a tenth.
fn percent(utilisation: u32) -> String {
    match utilisation.div_ceil(1000) {
        10_000.. => "> 999.9".to_owned(),
        tenths => format!("{}.{}", tenths / 10, tenths % 10),
    }
}

fn word(passes: bool) -> &'static str {
    if passes {
        "pass"
    } else {
        "FAIL"
    }
}

/// Whether strength and sag pass, and what governs.
const JUDGED: [(&str, u64, [bool; 2], &str); 7] = [
    (BEAM, 1_500_000, [true, true], "bending, 7.9"),
    (BEAM, 1_800_000, [true, true], "sag, 7.34 and 7.35"),
    (BEAM, 3_600_000, [true, false], "sag, 7.34 and 7.35"),
    (BEAM, 10_000_000_000, [true, false], "sag, 7.34 and 7.35"),
    (FAILS, 1_500_000, [false, true], "bending, 7.9"),
    (FAILS, 1_600_000, [false, false], "bending, 7.9"),
    (FAILS, 3_600_000, [false, false], "sag, 7.34 and 7.35"),
];

#[test]
fn strength_and_sag_stand_before_the_verdict_on_both() {
    for (beam, moment, passes, governing) in JUDGED {
        let line = asking(beam, moment, 200);
        let strength = entry::check_floor_beam(&cells_of(&line)).unwrap().verdict;
        let sag = judged(&line);
        assert_eq!([strength.passes, sag.passes], passes, "{line}");
        let greater = strength.utilisation.max(sag.utilisation);
        let [of_strength, of_sag] = [strength.utilisation, sag.utilisation].map(percent);
        let parts = [
            format!("  {} {of_strength:>7} (7)  ", word(passes[0])),
            format!("  200  {} {of_sag:>7}  ", word(passes[1])),
            format!(
                "  {:<7}  {:>7}  {governing}",
                word(passes[0] && passes[1]),
                percent(greater)
            ),
        ];
        let run = table(&[line]);
        let shown = run.line(&beam[..3].replace(',', " "));
        assert!(shown.contains(&parts[0]), "{} in {shown}", parts[0]);
        assert!(shown.contains(&parts[1]), "{} in {shown}", parts[1]);
        assert!(shown.ends_with(&parts[2]), "{} in {shown}", parts[2]);
        assert_eq!(run.code, i32::from(passes != [true, true]));
    }
}

#[test]
fn the_count_and_the_exit_code_are_of_the_verdict_on_both() {
    let passes = |(_, _, passes, _): &&(&str, u64, [bool; 2], &str)| *passes == [true, true];
    let lines = |(beam, moment, ..): &(&str, u64, [bool; 2], &str)| asking(beam, moment, 200);
    let all: Vec<String> = JUDGED.iter().map(lines).collect();
    let passing: Vec<String> = JUDGED.iter().filter(passes).map(lines).collect();
    assert_eq!(passing.len(), 2);
    let run = table(&all);
    let tally = "7 rows: 2 passed, 5 failed, 0 refused";
    assert_eq!((run.code, run.summary()), (1, tally));
    let written = csv(&all);
    assert_eq!(written.code, 1);
    assert!(
        written.err.ends_with(&format!("\n{tally}\n")),
        "{}",
        written.err
    );
    let run = table(&passing);
    let tally = "2 rows: 2 passed, 0 failed, 0 refused";
    assert_eq!((run.code, run.summary()), (0, tally));
}

/// At the turn a N·mm decides, and what is shown is above 100.0 exactly where the sag fails.
#[test]
fn the_turn_of_the_sag() {
    for n in [100, 150, 200, 250, 333, 500] {
        let greatest = greatest_moment(n);
        let at_turn = [greatest, greatest + 1].map(|moment| beam(moment, n));
        let verdicts = [&at_turn[0], &at_turn[1]].map(|line| judged(line).passes);
        assert_eq!(verdicts, [true, false]);
        for (line, shown, code) in [
            (&at_turn[0], "  pass   100.0  pass       100.0  sag, ", 0),
            (&at_turn[1], "  FAIL   100.1  FAIL       100.1  sag, ", 1),
        ] {
            let run = table(std::slice::from_ref(line));
            assert!(run.line("B1 ").contains(shown), "{n}: {}", run.out);
            assert_eq!(run.code, code);
        }
    }
}

/// Of equal utilisations that of strength governs, in the middle and at the cap.
#[test]
fn among_equals_strength_governs() {
    let strength = entry::check_floor_beam(&cells_of(BEAM)).unwrap().verdict;
    let sag = judged(&beam(1, 200));
    let wanted = u64::from(strength.utilisation);
    let moment = wanted * sag.limit_moment / u64::from(sag.shear_factor);
    let capped = "B1,50000,50000,20000,3,60,500,20,60,10000000000,500".to_owned();
    let lines = [beam(moment, 200), beam(moment + 1, 200), capped];
    let sags = [&lines[0], &lines[1], &lines[2]].map(|line| judged(line).utilisation);
    assert_eq!(sags[0], strength.utilisation);
    assert_eq!(sags[1], strength.utilisation + 1);
    assert_eq!(sags[2], 9_999_999);
    let out = csv(&lines).out;
    let shown = |heading: &str| -> Vec<&str> {
        let lines = out.lines().skip(1);
        lines.map(|line| answer(&out, line, heading)).collect()
    };
    assert_eq!(shown("check"), ["7", "sag", "7"]);
    assert_eq!(shown("strength utilisation in millionths")[2], "9999999");
    assert_eq!(shown("utilisation in millionths")[2], "9999999");
}

/// The span is that of the beam, and the regime that was found.
#[test]
fn sag_is_asked_of_the_beam_as_its_strength_was() {
    for (loads, duration) in [("1600,400", 90), ("1601,400", 75)] {
        for span in [500, 4200, 20_000] {
            let line = format!("B1,{loads},{span},2,15,777,45,160,1000000,250");
            let found = entry::check_floor_beam(&cells_of(&line)).unwrap();
            let sag = sag_of(&line, &found).unwrap().unwrap();
            assert_eq!(sag.elastic_duration, duration);
            let out = csv(&[line]).out;
            let shown = out.lines().nth(1).unwrap();
            let limit = answer(&out, shown, "limit moment Mf in N·mm");
            assert_eq!(limit, sag.limit_moment.to_string());
        }
    }
}
