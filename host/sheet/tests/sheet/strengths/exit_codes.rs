//! The exit code: 0 where no row is refused, whatever fails; 1 where one is; 2 where nothing is listed.
use super::strengths_of;
use crate::common::{run, table_of, ROW_A, ROW_B, ROW_E};

const FAILS: &str = "far,2,1,3,10,1000,75,300,,9000000000,20000";
const REFUSED: &str = "P8,2,1,4,12,1000,75,300,,,14900";

#[test]
fn a_member_that_fails_is_no_failure() {
    for (rows, code, judged, count) in [
        (
            &[ROW_A, ROW_B, ROW_E][..],
            0,
            0,
            "3 rows: 3 with strengths, 0 refused",
        ),
        (&[ROW_A, FAILS], 0, 1, "2 rows: 2 with strengths, 0 refused"),
        (&[FAILS], 0, 1, "1 row: 1 with strengths, 0 refused"),
        (
            &[ROW_A, REFUSED, FAILS],
            1,
            1,
            "3 rows: 2 with strengths, 1 refused",
        ),
        (&[REFUSED], 1, 1, "1 row: 0 with strengths, 1 refused"),
    ] {
        let listed = strengths_of(rows);
        assert_eq!((listed.code, listed.summary()), (code, count));
        assert_eq!(listed.err, "");
        assert_eq!(table_of(rows).code, judged, "{count}");
    }
}

#[test]
fn nothing_is_listed() {
    for (arguments, message) in [
        (&["--strengths"][..], "usage: sheet"),
        (
            &["--strengths", "no-such-sheet.csv"],
            "no-such-sheet.csv: No such file",
        ),
        (&["--strengths", "-"], "standard input: there are no rows"),
        (
            &["--strengths", env!("CARGO_MANIFEST_DIR")],
            "Is a directory",
        ),
        (&["--strengths", "a.csv", "b.csv"], "one sheet at a time"),
        (&["--strength", "a.csv"], "there is no option --strength\n"),
        (
            &["--strengths=a.csv"],
            "there is no option --strengths=a.csv\n",
        ),
    ] {
        let run = run(arguments);
        assert_eq!((run.code, run.out.as_str()), (2, ""), "{}", run.err);
        assert!(run.err.contains(message), "{}", run.err);
    }
}
