//! Two beams worked by hand, step by step.
use super::{csv, table};

/// K45, moisture 12, regime В: the modulus is 12000 MPa, e 90 and w 100.
/// E = 12000 × 90 × 100 / 10000 = 10800.
/// Mf = 4 × 10800 × 45 × 160³ / (5 × 4200 × 200) = 7,962,624,000,000 / 4,200,000 = 1,895,862.86, down 1,895,862.
/// Factor: 19,200,000 × 160² / 4200² = 491,520,000,000 / 17,640,000 = 27,863.95, up 27,864, and 1,000,000.
/// Utilisation = 1,800,000 × 1,027,864 / 1,895,862 = 1,850,155,200,000 / 1,895,862 = 975,891.28, up 975,892.
/// Strength: R = 25740, MR = 45 × 160² × 25740 / 6000 = 4,942,080; M = 2000 × 4200² / 8000 = 4,410,000, and so 892,337.
const STUDY: &str = "study,1600,400,4200,1,12,1000,45,160,1800000,200";

/// K40, moisture 20, regime Б: the modulus is 11000 MPa, e 75 and w 85.
/// E = 11000 × 75 × 85 / 10000 = 7012.5, down 7012.
/// Mf = 4 × 7012 × 45 × 200³ / (5 × 4200 × 150) = 10,097,280,000,000 / 3,150,000 = 3,205,485.71, down 3,205,485.
/// Factor: 19,200,000 × 200² / 4200² = 768,000,000,000 / 17,640,000 = 43,537.41, up 43,538, and 1,000,000.
/// Utilisation = 3,000,000 × 1,043,538 / 3,205,485 = 3,130,614,000,000 / 3,205,485 = 976,642.85, up 976,643.
/// Strength: R = 34000 × 53 × 85 × 853 / 10,000,000 = 13065, MR = 45 × 200² × 13065 / 6000 = 3,919,500;
/// M = 2001 × 4200² / 8000 = 4,412,205, and so 1,125,706.08, up 1,125,707.
const GARDEN: &str = "garden,1601,400,4200,2,20,853,45,200,3000000,150";

#[test]
fn in_the_table() {
    let out = table(&[STUDY, GARDEN].map(str::to_owned)).out;
    #[rustfmt::skip]
    let expected = [
        "Beam    Span, mm  b × h, mm     q, N/m  Regime  M, kN·m    Q, kN  Strength, %       Mn, kN·m    n  Sag, %        Verdict  Util. %  Governing check, clause of SP 64",
        "study       4200    45 × 160      2000  В (3)      4.41     4.20  pass    89.3 (7)      1.80  200  pass    97.6  pass        97.6  sag, 7.34 and 7.35",
        "garden      4200    45 × 200      2001  Б (2)      4.42     4.21  FAIL   112.6 (7)      3.00  150  pass    97.7  FAIL       112.6  bending, 7.9",
    ];
    let lines: Vec<&str> = out.lines().collect();
    assert_eq!([lines[0], lines[2], lines[3]], expected);
    let rule = "─".repeat(expected[0].chars().count());
    assert_eq!(lines[1], rule);
}

#[test]
fn in_the_answer_columns() {
    let out = csv(&[STUDY, GARDEN].map(str::to_owned)).out;
    let lines: Vec<&str> = out.lines().skip(1).collect();
    let study = "pass,sag,975892,,,2000,В,4410000,4200,pass,7,892337,pass,975892,,,12000,90,100,10800,1895862,1027864";
    let garden = "fail,7,1125707,,,2001,Б,4412205,4203,fail,7,1125707,pass,976643,,,11000,75,85,7012,3205485,1043538";
    assert_eq!(
        lines,
        [format!("{STUDY},{study}"), format!("{GARDEN},{garden}")]
    );
}
