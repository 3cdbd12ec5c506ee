//! `-o FILE`, and standard output that leads into the sheet itself.
use crate::common::{command, csv, run, table, Run, Scratch, HEADER, ROW_A, ROW_E};
use lvl_sheet::windows_1251;
use std::fs::{self, File, OpenOptions};
use std::os::unix::fs::{symlink, PermissionsExt};
use std::path::{Path, PathBuf};
use std::process::Command;

/// A folder of its own that lasts as long as the value.
struct Folder(PathBuf);

impl Folder {
    fn new(name: &str) -> Folder {
        let path = Path::new(env!("CARGO_TARGET_TMPDIR")).join(name);
        let _ = fs::remove_dir_all(&path);
        fs::create_dir(&path).unwrap();
        Folder(path)
    }

    fn file(&self, name: &str) -> String {
        self.0.join(name).to_str().unwrap().to_owned()
    }

    /// The names of what it holds.
    fn names(&self) -> Vec<String> {
        let entries = fs::read_dir(&self.0).unwrap();
        let mut names: Vec<String> = entries
            .map(|entry| entry.unwrap().file_name().into_string().unwrap())
            .collect();
        names.sort();
        names
    }
}

impl Drop for Folder {
    fn drop(&mut self) {
        let _ = fs::remove_dir_all(&self.0);
    }
}

fn sheet() -> String {
    format!("{HEADER}\n{ROW_A}\n{ROW_E}\n")
}

fn read(path: &str) -> String {
    fs::read_to_string(path).unwrap()
}

#[test]
fn answers_go_to_a_file() {
    let folder = Folder::new("answers-to-a-file");
    let (sheet_file, answers) = (folder.file("hall.csv"), folder.file("answers.csv"));
    fs::write(&sheet_file, sheet()).unwrap();
    let run_csv = run(&["--csv", "-o", &answers, &sheet_file]);
    assert_eq!(
        (run_csv.code, run_csv.out.as_str(), run_csv.err.as_str()),
        (0, "", "2 rows: 2 passed, 0 failed, 0 refused\n")
    );
    assert_eq!(read(&answers), csv(sheet()).out);
    // In place of what stood there, the sheet itself too.
    fs::write(&answers, "old").unwrap();
    fs::set_permissions(&answers, fs::Permissions::from_mode(0o640)).unwrap();
    assert_eq!(run(&["-o", &answers, &sheet_file]).out, "");
    assert_eq!(read(&answers), table(sheet()).out);
    let mode = fs::metadata(&answers).unwrap().permissions().mode();
    assert_eq!(mode & 0o777, 0o640);
    for options in [&[][..], &["--pack"], &["--strengths"]] {
        let arguments = [options, &["-o", &sheet_file, &sheet_file]].concat();
        let run = run(&arguments);
        assert_eq!((run.code, read(&sheet_file)), (2, sheet()), "{}", run.err);
        assert!(run
            .err
            .contains("-o names the sheet itself, and only --csv writes a sheet again"));
    }
    run(&["--csv", &sheet_file, "-o", &sheet_file]);
    assert_eq!(read(&sheet_file), csv(sheet()).out);
    // A link stays a link.
    let link = folder.file("link.csv");
    symlink("answers.csv", &link).unwrap();
    run(&["--csv", "-o", &link, &sheet_file]);
    assert!(fs::symlink_metadata(&link).unwrap().is_symlink());
    assert_eq!(read(&answers), read(&sheet_file));
    assert_eq!(folder.names(), ["answers.csv", "hall.csv", "link.csv"]);
}

#[test]
fn a_file_has_what_standard_output_has() {
    let folder = Folder::new("as-standard-output");
    let (sheet_file, answers) = (folder.file("hall.csv"), folder.file("answers"));
    let russian = sheet().replace("A,", "Ригель,");
    let marked = format!("\u{feff}{russian}");
    let utf16: Vec<u8> = marked.encode_utf16().flat_map(u16::to_le_bytes).collect();
    for content in [
        windows_1251::encode(&russian),
        marked.clone().into_bytes(),
        utf16,
    ] {
        fs::write(&sheet_file, &content).unwrap();
        for options in [&["--csv"][..], &["--pack"], &["--strengths"], &[]] {
            let printed = command().args(options).arg(&sheet_file).output().unwrap();
            let mut to_file = command();
            to_file.args(options).args(["-o", &answers, &sheet_file]);
            let written = to_file.output().unwrap();
            assert_eq!(fs::read(&answers).unwrap(), printed.stdout);
            assert_eq!(
                (written.stdout, written.stderr),
                (Vec::new(), printed.stderr)
            );
            assert!(!printed.stdout.is_empty());
        }
    }
}

/// No rows, columns that are not clear, a header further down, a sheet that is not there.
#[test]
fn a_run_that_stops_leaves_the_old_file_and_nothing_else() {
    let folder = Folder::new("stopped");
    let (sheet_file, answers) = (folder.file("hall.csv"), folder.file("answers.csv"));
    fs::write(&answers, "old").unwrap();
    let further_down = format!(
        "{}{}\n",
        sheet(),
        HEADER.replace("b,h", "h,b") + &format!("\n{ROW_A}").repeat(40)
    );
    for content in [
        HEADER.to_owned(),
        sheet().replace("grade", "x"),
        further_down,
    ] {
        fs::write(&sheet_file, content).unwrap();
        let run = run(&["--csv", "-o", &answers, &sheet_file]);
        assert_eq!(
            (run.code, read(&answers).as_str()),
            (2, "old"),
            "{}",
            run.err
        );
        assert_eq!(folder.names(), ["answers.csv", "hall.csv"]);
    }
    assert_eq!(run(&["-o", &answers, &folder.file("none.csv")]).code, 2);
    assert_eq!(read(&answers), "old");
    symlink("none", folder.file("nowhere")).unwrap();
    for (target, message) in [
        (folder.file("none/answers.csv"), "No such file or directory"),
        (folder.file("."), "it is no file"),
        (folder.file("nowhere"), "it is a link that leads nowhere"),
        ("/dev/null".to_owned(), "it is no file"),
    ] {
        fs::write(&sheet_file, sheet()).unwrap();
        let run = run(&["--csv", "-o", &target, &sheet_file]);
        assert_eq!((run.code, run.out.as_str()), (2, ""));
        assert_eq!(run.err.lines().count(), 1, "{}", run.err);
        assert!(
            run.err.contains(" cannot be written: ") && run.err.contains(message),
            "{}",
            run.err
        );
    }
    for arguments in [&["-o"][..], &["a.csv", "-o", "-"], &["a.csv", "-o", ""]] {
        assert!(run(arguments).err.starts_with("sheet: -o needs a file"));
    }
    assert!(run(&["-o", "a", "-o", "b", "c.csv"])
        .err
        .contains("one -o FILE at a time"));
}

/// The system ends a process at the size that it may write, in the middle of the answers; or it refuses the write.
#[test]
fn an_interrupted_run_leaves_the_old_file_whole() {
    let folder = Folder::new("interrupted");
    let (sheet_file, answers) = (folder.file("hall.csv"), folder.file("answers.csv"));
    fs::write(
        &sheet_file,
        format!("{HEADER}\n{}", format!("{ROW_A}\n").repeat(10_000)),
    )
    .unwrap();
    let script = |prepare: &str| {
        let program = env!("CARGO_BIN_EXE_sheet");
        let line =
            format!("{prepare} ulimit -f 100; exec {program} --csv -o {answers} {sheet_file}");
        Command::new("sh").arg("-c").arg(line).output().unwrap()
    };
    fs::write(&answers, "old").unwrap();
    let ended = script("");
    assert_eq!(ended.status.code(), None, "a signal ends it");
    assert_eq!(read(&answers), "old");
    for name in folder.names() {
        assert!(
            ["answers.csv", "hall.csv"].contains(&name.as_str()) || name.ends_with(".new"),
            "{name}"
        );
        if name.ends_with(".new") {
            fs::remove_file(folder.file(&name)).unwrap();
        }
    }
    let refused = Run::of(script("trap '' XFSZ;"));
    assert_eq!(refused.code, 2);
    assert!(
        refused
            .err
            .contains("answers.csv cannot be written: File too large"),
        "{}",
        refused.err
    );
    assert_eq!(read(&answers), "old");
    assert_eq!(folder.names(), ["answers.csv", "hall.csv"]);
}

#[test]
fn standard_output_that_is_the_sheet_is_refused() {
    let file = Scratch::new(sheet().as_bytes());
    let appended = || OpenOptions::new().append(true).open(&file.0).unwrap();
    let message = "standard output leads into the sheet itself, so nothing is written";
    for options in [&[][..], &["--csv"], &["--pack"], &["--strengths"]] {
        for from_input in [false, true] {
            let mut command = command();
            command.args(options).stdout(appended());
            match from_input {
                true => command.arg("-").stdin(File::open(&file.0).unwrap()),
                false => command.arg(&file.0),
            };
            let run = Run::of(command.output().unwrap());
            assert_eq!(run.code, 2);
            assert!(run.err.contains(message), "{}", run.err);
            assert_eq!(read(file.path()), sheet());
        }
    }
    // What is no file may be both.
    let null = || {
        File::options()
            .read(true)
            .write(true)
            .open("/dev/null")
            .unwrap()
    };
    let both = command().arg("-").stdin(null()).stdout(null()).output();
    assert!(Run::of(both.unwrap()).err.ends_with("there are no rows\n"));
    // Emptied by whoever started it: said all the same.
    let emptied = File::create(&file.0).unwrap();
    let run = Run::of(command().arg(&file.0).stdout(emptied).output().unwrap());
    assert!(run.err.contains(message), "{}", run.err);
    // With -o nothing goes there.
    fs::write(&file.0, sheet()).unwrap();
    let run = Run::of(
        command()
            .args(["--csv", "-o", file.path()])
            .arg(&file.0)
            .stdout(appended())
            .output()
            .unwrap(),
    );
    assert_eq!((run.code, read(file.path())), (0, csv(sheet()).out));
}
