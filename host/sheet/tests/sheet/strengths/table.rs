//! The table of strengths to the letter. All figures are worked out by hand: table value × t × w × o / 10,000,000.
use super::{row_lines, strengths, strengths_of};
use crate::common::{table_of, ROW_A, ROW_E};
use std::collections::BTreeSet;

/// All kinds and grades, every width of a regime's code and of a strength, and rows that are refused.
const SHEET: &str = "\
member,kind,grade,regime,moisture,factor,b,h,N,M,Q,Lh,Lb,Table 16 row
tie,1,2,5,15,853,100,200,100000,,,3000,3000,5
purlin,2,1,3,18,977,75,300,,20000000,20000,,,
post,3,3,2,13,1000,100,200,50000,,,3000,2000,1
column,4,2,7,25,501,160,500,216000,61500000,24000,13200,3000,1
bottom chord,5,3,8,16,999,150,350,260000,14200000,21000,6000,6000,4
beam in regime 10,2,1,10,12,667,75,300,,20000000,20000,,,
beam in regime 8,2,1,8,0,1000,75,300,,20000000,20000,,,
hardly anything dropped,2,1,7,20,742,75,300,,20000000,20000,,,
no kind,,1,3,10,1000,75,300,,20000000,20000,,,
fire,2,1,9,10,1000,75,300,,20000000,20000,,,
no code of a grade,2,4,3,10,1000,75,300,,20000000,20000,,,
no code of a regime,2,2,12,10,1000,75,300,,20000000,20000,,,
a fraction,2,3,11,12.5,1000,75,300,,20000000,20000,,,
too great a factor,2,3,11,60,1050,75,300,,20000000,20000,,,
text,1,x,y,z,u,100,200,100000,,,3000,3000,5
blank,2,,,,,75,300,,20000000,20000,,,
";

/// Lines end with their last figure or their reason, without blanks.
///
/// Tie: 27000 × 80 × 90 × 853 = 165,823,200,000.
/// Purlin: 39000 × 66 × 85 × 977 = 213,757,830,000; 4100 × 66 × 85 × 977 = 22,471,977,000.
/// Post: 27000 × 53 × 90 × 1000 = 128,790,000,000.
/// Column: 34000 × 92 × 75 × 501 = 117,534,600,000; 30000: 103,707,000,000; 3900: 13,481,910,000.
/// Bottom chord: 30000 × 110 × 85 × 999 = 280,219,500,000; 24000: 224,175,600,000; 3900: 36,428,535,000.
/// Regime 10: 39000 × 75 × 100 × 667 = 195,097,500,000; 4100: 20,510,250,000.
/// Regime 8: 39000 × 110 × 100 × 1000 = 429,000,000,000; 4100: 45,100,000,000.
/// Hardly anything: 39000 × 92 × 85 × 742 = 226,295,160,000; 4100: 23,790,004,000.
#[rustfmt::skip]
const TABLE: &str = "\
Member                   Grade  Regime  Moist. %  Factor ‰       Bending, kPa   Compression, kPa       Tension, kPa         Shear, kPa  Why refused
───────────────────────────────────────────────────────────────────────────────────────────────────────────────────────────────────────────────────
tie                      K40    Д (5)         15       853                  –                  –  16582 + 0.3200000                  –
purlin                   K45    В (3)         18       977  21375 + 0.7830000                  –                  –   2247 + 0.1977000
post                     K35    Б (2)         13      1000                  –  12879 + 0.0000000                  –                  –
column                   K40    Ж (7)         25       501  11753 + 0.4600000  10370 + 0.7000000                  –   1348 + 0.1910000
bottom chord             K35    И (8)         16       999  28021 + 0.9500000                  –  22417 + 0.5600000   3642 + 0.8535000
beam in regime 10        K45    Л (10)        12       667  19509 + 0.7500000                  –                  –   2051 + 0.0250000
beam in regime 8         K45    И (8)          0      1000  42900 + 0.0000000                  –                  –   4510 + 0.0000000
hardly anything dropped  K45    Ж (7)         20       742  22629 + 0.5160000                  –                  –   2379 + 0.0004000
no kind                  K45    В (3)         10      1000                  –                  –                  –                  –  cell 1 kind: blank
fire                     K45    К (9)         10      1000                  –                  –                  –                  –  cell 3 regime: 9 stands for К, which belongs to fire
no code of a grade       ?      В (3)         10      1000                  –                  –                  –                  –  cell 2 grade: 4 is not a known code
no code of a regime      K40    ?             10      1000                  –                  –                  –                  –  cell 3 regime: 12 is not a known code
a fraction               K35    М (11)         ?      1000                  –                  –                  –                  –  cell 4 moisture: 12.5 is not a whole number
too great a factor       K35    М (11)        60      1050                  –                  –                  –                  –  cell 5 office factor: 1050 is outside 500 to 1000 thousandths
text                     ?      ?              ?         ?                  –                  –                  –                  –  cell 2 grade: \"x\" is not a number
blank                    –      –              –         –                  –                  –                  –                  –  cell 2 grade: blank, but kind 2 needs it

R in full is the sum of both numbers, exactly; the checks use the first.
Bending is used by the check of bending (7) and of bending with an axial force (11), compression by buckling (9, 10) and, in kind 4, 11,
tension by net tension (5), side pieces (6) and, in kind 5, 11, shear by the check of shear (8).

16 rows: 8 with strengths, 8 refused
";

#[test]
fn all_kinds_and_refused_rows() {
    let run = strengths(SHEET, &[]);
    assert_eq!(run.out, TABLE);
    assert_eq!((run.code, run.err.as_str()), (1, ""));
}

#[test]
fn one_row() {
    let run = strengths_of(&[ROW_A]);
    let figures = "A       K45    В (3)         10      1000  25740 + 0.0000000                  –                  –   2706 + 0.0000000";
    assert_eq!(run.line("A "), figures);
    assert_eq!(run.summary(), "1 row: 1 with strengths, 0 refused");
}

/// They are of the kind: the joint's length, its layout, slenderness and too great a force change nothing.
#[test]
fn a_member_that_fails_has_them_too() {
    let shown = "E       K40    Г (4)         12      1000                  –                  –  17820 + 0.0000000                  –";
    assert_eq!(strengths_of(&[ROW_E]).line("E "), shown);
    let without_joint = "E,1,2,4,12,1000,100,200,9000000,,,3000,3000,5";
    for (row, check) in [
        (ROW_E.replace("840", "671"), "joint length, 8.20"),
        (ROW_E.replace(",12,3,", ",16,3,"), "dowel layout, 8.20"),
        (
            ROW_E.replace("3000,3000", "20000,3000"),
            "slenderness across h, 7.4 and Table 16",
        ),
        (without_joint.to_owned(), "net tension, 7.1"),
    ] {
        let judged = table_of(&[&row]);
        let line = judged.line("E ");
        assert!(line.contains("  FAIL  ") && line.ends_with(check), "{line}");
        assert_eq!(strengths_of(&[&row]).line("E "), shown, "{check}");
    }
}

#[test]
fn names_are_cut_as_in_the_table() {
    let long = ROW_A.replace("A,", &format!("{},", "purlin ".repeat(2000)));
    let short = ["12", "123456789"].map(|name| ROW_A.replace("A,", &format!("{name},")));
    let rows = [ROW_A, &long, &short[0], &short[1]];
    let run = strengths_of(&rows);
    let starts = |out: &str| -> Vec<String> {
        let lines = out.lines().take(2 + rows.len());
        lines.map(|line| line.chars().take(42).collect()).collect()
    };
    assert_eq!(starts(&run.out), starts(&table_of(&rows).out));
    let cut = "purlin purlin purlin purlin purlin purl…  K45 ";
    assert!(run.line("purlin").starts_with(cut), "{}", run.out);
    let places = row_lines(&run).into_iter().map(|line| {
        let before = line.split_once("K45").unwrap().0;
        before.chars().count()
    });
    assert_eq!(places.collect::<Vec<_>>(), [42; 4]);
}

/// In a long sheet names have the width of the longest that may follow, so that it needs little memory; all rows are
/// listed.
#[test]
fn a_long_sheet() {
    let rows = vec![ROW_A; 2500];
    let run = strengths_of(&rows);
    assert_eq!(run.summary(), "2500 rows: 2500 with strengths, 0 refused");
    let long = ROW_A.replace("A,", &format!("{},", "long ".repeat(20)));
    let beside_a_long_one = strengths_of(&[ROW_A, &long]);
    assert_eq!(row_lines(&run), vec![beside_a_long_one.line("A "); 2500]);
    assert_eq!(run.out.matches("Why refused").count(), 1);
}

/// A number under another heading would be another strength.
#[test]
fn a_long_name_below_many_short_ones() {
    let long = ROW_A.replace("A,", "C1 column of axis 1 and A,");
    for short in [999, 1000, 1001] {
        let mut rows = vec![ROW_A; short];
        rows.push(&long);
        for run in [strengths_of(&rows), table_of(&rows)] {
            let ends: BTreeSet<usize> = row_lines(&run)
                .iter()
                .map(|line| {
                    start_of(line, "75 × 300")
                        .or(start_of(line, "25740"))
                        .unwrap()
                })
                .collect();
            assert_eq!(ends.len(), 1, "{short} short names: {ends:?}");
        }
    }
}

/// Letters with marks of their own, as some programs write й, and letters of two columns.
#[test]
fn names_by_the_columns_that_they_take() {
    let rows = [
        "крайний",
        "краи\u{306}нии\u{306}",
        "梁",
        &"梁".repeat(30),
        &"и\u{306}".repeat(60),
        &format!("A{}", "\u{301}".repeat(100_000)),
    ]
    .map(|name| ROW_A.replace("A,", &format!("{name},")));
    let run = strengths_of(&rows.each_ref().map(String::as_str));
    let taken = row_lines(&run).into_iter().map(|line| {
        let before = line.split_once("K45").unwrap().0;
        let marks = before
            .chars()
            .filter(|letter| matches!(letter, '\u{301}' | '\u{306}'));
        let wide = before.chars().filter(|&letter| letter == '梁');
        before.chars().count() + wide.count() - marks.count()
    });
    assert_eq!(taken.collect::<Vec<_>>(), [42; 6], "{}", run.out);
    assert!(run.out.len() < 10_000, "{}", run.out.len());
}

/// The column of a line in which a text begins.
fn start_of(line: &str, text: &str) -> Option<usize> {
    let (before, _) = line.split_once(text)?;
    Some(before.chars().count())
}
