//! The command line, standard input and output, and what cannot be judged.
use crate::common::{command, run, table, Run, Scratch, HEADER, ROW_A};
use lvl_sheet::{answer_columns, heading_names};
use std::io::{Read, Write};
use std::process::Stdio;

#[test]
fn nothing_to_judge() {
    for content in [
        "",
        "\n\n",
        HEADER,
        "\u{feff}",
        ",,,,\n;;;\n",
        &"\n".repeat(9_999),
    ] {
        let run = table(content);
        assert_eq!((run.code, run.out.as_str()), (2, ""));
        assert!(run.err.ends_with("there are no rows\n"), "{}", run.err);
    }
    for (arguments, message) in [
        (
            &["no-such-sheet.csv"][..],
            "sheet: no-such-sheet.csv: No such file",
        ),
        (&[env!("CARGO_MANIFEST_DIR")], "Is a directory"),
        (&["-"], "sheet: standard input: there are no rows"),
        (&[], "usage: sheet"),
        (&["--cvs", "a.csv"], "there is no option --cvs"),
        (&["a.csv", "b.csv"], "one sheet at a time"),
        (&["a.csv", "--skip"], "--skip needs a heading"),
        (&["--skip", " ", "a.csv"], "--skip needs a heading"),
        (&["--csv=a.csv"], "there is no option --csv=a.csv"),
        (
            &["/dev/zero"],
            "sheet: /dev/zero: longer than 268435456 bytes: this is no sheet\n",
        ),
        (
            &["--skip", "remarks", "--by-position", "a.csv"],
            "--skip goes by headings, and --by-position passes them by",
        ),
    ] {
        let run = run(arguments);
        assert_eq!((run.code, run.out.as_str()), (2, ""));
        assert!(run.err.contains(message), "{}", run.err);
    }
}

#[test]
fn help_names_every_cell_and_exit_code() {
    let run = run(&["--help"]);
    assert_eq!((run.code, run.err.as_str()), (0, ""));
    for part in [
        "moment M",
        "  22  km",
        "--csv",
        "Exit code: 0 every row passes, or is packed; 1 ",
        "  -o FILE ",
        "  --pack ",
        "  --  ",
        "earlier --csv",
        "in columns after its\n",
        "the 22 cells in this order",
        "in the first 30 lines",
        "--skip HEADING",
        "--by-position",
        "in a column past cell 22 is refused",
    ] {
        assert!(run.out.contains(part), "{part}");
    }
    assert!(!run.out.contains(['{', '}']), "{}", run.out);
    assert!(run.out.lines().all(|line| line.chars().count() <= 90));
}

#[test]
fn help_lists_the_headings_that_are_known() {
    let out = run(&["--help"]).out;
    let (_, list) = out.split_once("\nHeadings: ").unwrap();
    let list = list.split_whitespace().collect::<Vec<_>>().join(" ");
    let listed = |name: &str| {
        [format!(" {name},"), format!(" {name} ")]
            .iter()
            .any(|part| list.contains(part))
    };
    for name in heading_names::MEMBER
        .iter()
        .chain(&answer_columns::HEADINGS)
    {
        assert!(listed(name), "{name}");
    }
    for names in &heading_names::CELLS {
        assert!(
            names.symbol.is_empty() || listed(names.symbol),
            "{}",
            names.symbol
        );
        for word in names.words {
            assert!(listed(word), "{word}");
        }
        for word in names.beside_symbol {
            assert!(listed(&format!("{word} {}", names.symbol)), "{word}");
        }
    }
}

#[test]
fn standard_input_and_a_reader_that_leaves() {
    let mut child = command()
        .arg("-")
        .stdin(Stdio::piped())
        .stdout(Stdio::piped())
        .stderr(Stdio::piped())
        .spawn()
        .unwrap();
    child
        .stdin
        .take()
        .unwrap()
        .write_all(format!("{HEADER}\n{ROW_A}\n").as_bytes())
        .unwrap();
    assert!(Run::of(child.wait_with_output().unwrap())
        .line("A ")
        .contains("69.1"));

    let long =
        Scratch::new(format!("{HEADER}\n{}", format!("{ROW_A}\n").repeat(20_000)).as_bytes());
    for options in [&[][..], &["--csv"], &["--strengths"]] {
        let mut child = command()
            .args(options)
            .arg(&long.0)
            .stdout(Stdio::piped())
            .stderr(Stdio::piped())
            .spawn()
            .unwrap();
        child
            .stdout
            .take()
            .unwrap()
            .read_exact(&mut [0; 10])
            .unwrap();
        let run = Run::of(child.wait_with_output().unwrap());
        assert_eq!((run.code, run.err.as_str()), (2, ""));
    }
}
