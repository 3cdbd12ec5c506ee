//! `--strengths` beside the other options: forms, `-o`, `--help`.
use super::strengths;
use crate::common::{on_terminal, run, Scratch, HEADER, ROW_A, ROW_E};
use std::path::Path;

fn sheet() -> String {
    format!("{HEADER}\n{ROW_A}\n{ROW_E}\n")
}

#[test]
fn one_form_at_a_time() {
    let message = "sheet: --csv, --pack and --strengths are three forms: one at a time\nusage: ";
    for arguments in [
        &["--strengths", "--csv", "a.csv"][..],
        &["--csv", "--strengths", "a.csv"],
        &["--strengths", "a.csv", "--pack"],
        &["--pack", "--strengths", "a.csv"],
        &["--csv", "--pack", "a.csv"],
        &["--csv", "--pack", "--strengths", "a.csv"],
        &["--strengths", "--csv", "--strengths", "a.csv"],
        &["--floor", "--strengths", "--csv", "a.csv"],
    ] {
        let run = run(arguments);
        assert_eq!((run.code, run.out.as_str()), (2, ""), "{arguments:?}");
        assert!(run.err.starts_with(message), "{}", run.err);
    }
    // Asked for twice it is the same.
    let once = strengths(sheet(), &[]);
    assert_eq!(once.code, 0);
    assert_eq!(strengths(sheet(), &["--strengths"]).out, once.out);
}

#[test]
fn to_a_file() {
    let folder = Path::new(env!("CARGO_TARGET_TMPDIR")).join("strengths-to-a-file");
    let _ = std::fs::remove_dir_all(&folder);
    std::fs::create_dir(&folder).unwrap();
    let [file, answers] = ["hall.csv", "strengths.txt"].map(|name| folder.join(name));
    let [file, answers] = [&file, &answers].map(|path| path.to_str().unwrap());
    std::fs::write(file, sheet()).unwrap();
    std::fs::write(answers, "old").unwrap();
    let written = run(&["--strengths", "-o", answers, file]);
    assert_eq!(
        (written.code, written.out.as_str(), written.err.as_str()),
        (0, "", "")
    );
    let text = std::fs::read_to_string(answers).unwrap();
    assert_eq!(text, strengths(sheet(), &[]).out);
    assert!(
        text.ends_with("\n\n2 rows: 2 with strengths, 0 refused\n"),
        "{text}"
    );
    // The sheet itself is not overwritten.
    let refused = run(&["-o", file, file, "--strengths"]);
    assert_eq!((refused.code, refused.out.as_str()), (2, ""));
    let message =
        "-o names the sheet itself, and only --csv writes a sheet again: nothing is written";
    assert!(refused.err.contains(message), "{}", refused.err);
    assert_eq!(std::fs::read_to_string(file).unwrap(), sheet());
    // A run that stops leaves the old file.
    std::fs::write(file, HEADER).unwrap();
    assert_eq!(run(&["--strengths", "-o", answers, file]).code, 2);
    assert_eq!(std::fs::read_to_string(answers).unwrap(), text);
    std::fs::remove_dir_all(&folder).unwrap();
}

/// It is text, and goes to a terminal as it goes elsewhere.
#[test]
fn on_a_terminal() {
    let file = Scratch::new(sheet().as_bytes());
    let shown = on_terminal(&["--strengths", file.path()]);
    assert_eq!(shown.replace('\r', ""), file.run(&["--strengths"]).out);
}

#[test]
fn help_and_usage() {
    let usage = "usage: sheet [--floor] [--csv | --pack | --strengths] [-o FILE]\n";
    assert!(run(&[]).err.contains(usage));
    let help = run(&["--help"]).out;
    assert!(help.contains(usage), "{help}");
    for part in [
        "\n  --strengths     lists the strengths that the checks of each row use, in kPa and\n",
        "R = value of Table 7 × t × w × o /\n10000000, with the value in kPa, t and w in hundredths and o in thousandths, is\nrounded down to whole kPa",
        "Their sum is R in full, exactly",
        "--strengths a member that fails is no failure: 0 no row is refused, 1 a row is.\n",
        "--strengths\nshows the regime that was found",
    ] {
        assert!(help.contains(part), "{part}");
    }
}
