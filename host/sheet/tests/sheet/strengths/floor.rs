//! `--floor --strengths`: a beam is judged as a row of kind 2, and has the strengths of that row.
use super::strengths;
use crate::floor::{BEAM, HEADER};

/// В up to 80 percent of long-term load, Б above it; regime В on loads exchanged.
const BEAMS: &str = "\
B1,1600,400,4200,1,12,1000,45,160
B2,1601,400,4200,2,20,853,45,160
B3,400,1601,4200,2,20,853,45,160
fails,90000,9000,20000,3,25,921,45,160
no load,,400,4200,1,12,1000,45,160
short,1600,400,499,4,12,1000,45,160
wide,1600,400,4200,3,13,742,301,160
grade,1600,400,4200,4,13,742,45,160
";

/// B1: 39000 × 66 × 100 × 1000 = 257,400,000,000; 4100: 27,060,000,000.
/// B2: 34000 × 53 × 85 × 853 = 130,654,010,000; 3900: 14,986,783,500.
/// B3: 34000 × 66 × 85 × 853 = 162,701,220,000; 3900: 18,662,787,000.
/// The one that fails: 30000 × 53 × 75 × 921 = 109,829,250,000; 3900: 14,277,802,500.
#[rustfmt::skip]
const TABLE: &str = "\
Beam     Grade  Regime  Moist. %  Factor ‰       Bending, kPa   Compression, kPa       Tension, kPa         Shear, kPa  Why refused
───────────────────────────────────────────────────────────────────────────────────────────────────────────────────────────────────
B1       K45    В (3)         12      1000  25740 + 0.0000000                  –                  –   2706 + 0.0000000
B2       K40    Б (2)         20       853  13065 + 0.4010000                  –                  –   1498 + 0.6783500
B3       K40    В (3)         20       853  16270 + 0.1220000                  –                  –   1866 + 0.2787000
fails    K35    Б (2)         25       921  10982 + 0.9250000                  –                  –   1427 + 0.7802500
no load  K45    –             12      1000                  –                  –                  –                  –  refusal 8, permanent and long-term load: blank (wanted: from 0 N/m)
short    ?      –             12      1000                  –                  –                  –                  –  refusal 8, span: 499 is outside 500 to 20000 mm
wide     K35    –             13       742                  –                  –                  –                  –  cell 6 width b: 301 is outside 20 to 300 mm
grade    ?      –             13       742                  –                  –                  –                  –  cell 2 grade: 4 is not a known code

R in full is the sum of both numbers, exactly; the checks use the first.
Bending is used by the check of bending (7), shear by the check of shear (8).

8 rows: 4 with strengths, 4 refused
";

#[test]
fn beams() {
    let run = strengths(format!("{HEADER}\n{BEAMS}"), &["--floor"]);
    assert_eq!(run.out, TABLE);
    assert_eq!((run.code, run.err.as_str()), (1, ""));
}

#[test]
fn a_beam_that_fails_is_no_failure() {
    let fails = BEAMS
        .lines()
        .find(|beam| beam.starts_with("fails"))
        .unwrap();
    let sheet = format!("{HEADER}\n{BEAM}\n{fails}\n");
    let judged = crate::floor::table(&sheet);
    assert_eq!(judged.summary(), "2 rows: 1 passed, 1 failed, 0 refused");
    let run = strengths(&sheet, &["--floor"]);
    assert_eq!(run.summary(), "2 rows: 2 with strengths, 0 refused");
    assert_eq!((judged.code, run.code), (1, 0));
}

#[test]
fn headings_in_any_order_and_none_at_all() {
    let listed = strengths(format!("{HEADER}\n{BEAMS}"), &["--floor"]).out;
    let turned = |line: &str| line.rsplit(',').collect::<Vec<_>>().join(",");
    let lines = [HEADER].into_iter().chain(BEAMS.lines()).map(turned);
    let sheet = lines.collect::<Vec<_>>().join("\n");
    assert_eq!(strengths(sheet, &["--floor"]).out, listed);
    assert_eq!(strengths(BEAMS, &["--floor"]).out, listed);
    assert_eq!(strengths(BEAMS, &["--floor", "--by-position"]).out, listed);
}
