//! What a terminal would obey or hide never reaches it: from names, cells, headings, file names or options.
use crate::common::{command, csv, on_terminal, run, Run, Scratch, HEADER, ROW_A};
use lvl_sheet::text::{is_unseen, shown};
use std::path::Path;

/// Controls of one byte and of two, turns of direction, characters without width.
const UNSEEN: [char; 25] = [
    '\0',
    '\x07',
    '\x08',
    '\x1b',
    '\x7f',
    '\u{80}',
    '\u{9b}',
    '\u{ad}',
    '\u{61c}',
    '\u{200b}',
    '\u{200d}',
    '\u{200e}',
    '\u{200f}',
    '\u{202a}',
    '\u{202e}',
    '\u{2060}',
    '\u{2066}',
    '\u{2069}',
    '\u{feff}',
    '\u{fe0f}',
    '\u{fff9}',
    '\u{e0041}',
    '\u{600}',
    '\u{70f}',
    '\u{13430}',
];

fn assert_seen(text: &str) {
    for character in text.chars().filter(|character| *character != '\n') {
        assert!(!is_unseen(character), "{character:?} in {text:?}");
    }
}

#[test]
fn what_is_not_seen_is_shown_as_such() {
    for character in UNSEEN {
        assert!(is_unseen(character), "{character:?}");
        assert_eq!(shown(&format!("a{character}b"), 10), "a\u{fffd}b");
    }
    for space in ['\t', '\n', '\r', '\u{85}', '\u{2028}', '\u{2029}'] {
        assert_eq!(shown(&format!("a{space}b"), 10), "a b");
    }
    let seen = "aяё\u{a0}·№–≤²ａ\u{1f4a9}𝛼אع";
    assert_eq!(shown(seen, 100), seen);
}

#[test]
fn nothing_unseen_in_tables_notes_and_messages() {
    for character in UNSEEN {
        let odd = format!("o{character}d");
        // No argument holds a NUL.
        let argument = odd.replace('\0', "\x1b");
        let name = format!("{odd},{}", &ROW_A[2..]);
        let cell = ROW_A.replace(",75,", &format!(",{odd},"));
        let extra = format!("{ROW_A},,,,,,,,,,,,,{odd}");
        let sheet = format!("{odd}\n{HEADER}\n{name}\n{cell}\n{extra}\n");
        let file = Scratch::new(sheet.as_bytes());
        let table = file.run(&[]);
        assert_eq!(table.summary(), "3 rows: 1 passed, 0 failed, 2 refused");
        let strengths = file.run(&["--strengths"]);
        assert_eq!(strengths.summary(), "3 rows: 1 with strengths, 2 refused");
        let headed = Scratch::new(sheet.replace("grade", &odd).as_bytes());
        let unknown = headed.run(&["--skip", &argument, "--skip", &format!("{argument}x")]);
        assert_eq!(unknown.code, 2);
        for run in [
            &table,
            &file.run(&["--csv"]),
            &file.run(&["--pack"]),
            &strengths,
            &unknown,
        ] {
            assert_seen(&run.err);
        }
        assert_seen(&table.out);
        assert_seen(&strengths.out);
        for arguments in [
            &[argument.as_str()][..],
            &[&format!("--{argument}")],
            &["-o", &format!("/none/{argument}"), file.path()],
        ] {
            let run = run(arguments);
            assert_eq!(run.code, 2);
            assert!(run.err.contains("o\u{fffd}d"), "{}", run.err);
            assert_seen(&run.err);
        }
    }
    let bytes = <std::ffi::OsStr as std::os::unix::ffi::OsStrExt>::from_bytes(b"--\xFF\x9B");
    let run = Run::of(command().arg(bytes).output().unwrap());
    assert!(run
        .err
        .starts_with("sheet: there is no option --\u{fffd}\u{fffd}"));
}

#[test]
fn answer_columns_on_a_terminal_are_visible_text() {
    let odd = "o\x1b[2Jd\u{202e}\u{9b}x";
    let sheet = format!("{HEADER}\n{odd},{}\n", &ROW_A[2..]);
    let file = Scratch::new(sheet.as_bytes());
    let shown = on_terminal(&["--csv", file.path()]);
    assert!(
        shown.contains("o\u{fffd}[2Jd\u{fffd}\u{fffd}x,2,1,3,"),
        "{shown}"
    );
    assert!(shown.contains(",pass,7,690668,0,,"), "{shown}");
    assert_seen(&shown.replace('\r', ""));
    // Elsewhere they are the sheet's own.
    assert!(csv(&sheet).out.contains(odd));
    // Bytes of Windows-1251 would be controls of one byte.
    let mut content = format!("{HEADER}\n").into_bytes();
    content.extend_from_slice(b"\x9B\x85\xCF\xF0\xEE\xE3\xEE\xED,");
    content.extend_from_slice(&ROW_A.as_bytes()[2..]);
    let shown = on_terminal(&["--csv", Scratch::new(&content).path()]);
    assert!(shown.contains("›…Прогон,2,1,3,"), "{shown}");
}

#[test]
fn a_file_that_is_named_like_an_option() {
    let folder = Path::new(env!("CARGO_TARGET_TMPDIR")).join("options");
    std::fs::create_dir_all(&folder).unwrap();
    for name in ["--csv", "--help", "-", "-o", "--"] {
        std::fs::write(folder.join(name), format!("{HEADER}\n{ROW_A}\n")).unwrap();
        let in_folder = |arguments: &[&str]| {
            Run::of(
                command()
                    .args(arguments)
                    .current_dir(&folder)
                    .output()
                    .unwrap(),
            )
        };
        let run = in_folder(&["--csv", "--", name]);
        assert_eq!(run.code, 0, "{}", run.err);
        assert!(run.out.contains(",pass,7,690668,0,,"), "{}", run.out);
        assert!(in_folder(&["--", name, name])
            .err
            .contains("one sheet at a time"));
    }
    assert!(run(&["--"]).err.starts_with("sheet: usage: "));
    std::fs::remove_dir_all(folder).unwrap();
}
