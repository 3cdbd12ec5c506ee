//! What the tests share: sheets and their rows, the command, what a run of it leaves behind.
use lvl_addin::row::{HostRow, CELLS};
use std::path::{Path, PathBuf};
use std::process::{Command, Output, Stdio};
use std::sync::atomic::{AtomicUsize, Ordering};

pub const HEADER: &str =
    "member,kind,grade,regime,moisture,factor,b,h,N,M,Q,Lh,Lb,Table 16 row,a,d,r,joint length,kc,ka,kb,ke,km";
pub const ROW_A: &str = "A,2,1,3,10,1000,75,300,,20000000,20000";
pub const ROW_B: &str = "B,3,3,2,13,1000,100,200,50000,,,3000,2000,1";
pub const ROW_E: &str =
    "E,1,2,4,12,1000,100,200,100000,,,3000,3000,5,50,12,3,840,500,800,1800,20,2500";

/// The cells of a line as far as they are given, and blank ones to the last.
pub fn to_last_cell(given: &str, separator: char) -> String {
    let missing = CELLS - given.split(separator).count();
    given.to_owned() + &separator.to_string().repeat(missing)
}

/// The cells of a row after its name, which may be in quotes.
pub fn cells_of(row: &str) -> HostRow {
    let quoted = row.strip_prefix('"').map(|name| name.split_once("\","));
    let (_, given) = quoted.unwrap_or(row.split_once(',')).unwrap();
    let cell = |text: &str| (!text.is_empty()).then(|| text.parse().unwrap_or(f64::NAN));
    let mut cells = [None; CELLS];
    for (to, text) in cells.iter_mut().zip(given.split(',')) {
        *to = cell(text);
    }
    cells
}

pub fn hall_roof() -> String {
    let path = Path::new(env!("CARGO_MANIFEST_DIR")).join("../../examples/hall-roof.csv");
    std::fs::read_to_string(path).unwrap()
}

/// What a run left behind.
pub struct Run {
    pub code: i32,
    pub out: String,
    pub err: String,
}

impl Run {
    pub fn of(output: Output) -> Run {
        let run = Run {
            code: output.status.code().expect("no signal ends it"),
            out: String::from_utf8_lossy(&output.stdout).into_owned(),
            err: String::from_utf8_lossy(&output.stderr).into_owned(),
        };
        assert!(
            (0..=2).contains(&run.code),
            "exit code {}: {}",
            run.code,
            run.err
        );
        assert!(!run.err.contains("panicked"), "{}", run.err);
        run
    }

    /// The table's line of a member.
    pub fn line(&self, member: &str) -> &str {
        let mut lines = self.out.lines().filter(|line| line.starts_with(member));
        lines
            .next()
            .unwrap_or_else(|| panic!("no line of {member} in\n{}", self.out))
    }

    pub fn summary(&self) -> &str {
        self.out.lines().last().unwrap_or("")
    }
}

pub fn command() -> Command {
    Command::new(env!("CARGO_BIN_EXE_sheet"))
}

pub fn run(arguments: &[&str]) -> Run {
    Run::of(
        command()
            .args(arguments)
            .stdin(Stdio::null())
            .output()
            .unwrap(),
    )
}

/// What a terminal gets to see of a run.
pub fn on_terminal(arguments: &[&str]) -> String {
    let quoted = |argument: &&str| format!("'{argument}'");
    let arguments: Vec<String> = arguments.iter().map(quoted).collect();
    let line = format!("{} {}", env!("CARGO_BIN_EXE_sheet"), arguments.join(" "));
    let mut script = Command::new("script");
    script.args(["--quiet", "--return", "--command", &line, "/dev/null"]);
    let output = script.stdin(Stdio::null()).output().unwrap();
    String::from_utf8(output.stdout).unwrap()
}

/// A file that lasts as long as the value.
pub struct Scratch(pub PathBuf);

impl Scratch {
    pub fn new(content: &[u8]) -> Scratch {
        static NEXT: AtomicUsize = AtomicUsize::new(0);
        let name = format!("sheet-{}.csv", NEXT.fetch_add(1, Ordering::Relaxed));
        let path = Path::new(env!("CARGO_TARGET_TMPDIR")).join(name);
        std::fs::write(&path, content).unwrap();
        Scratch(path)
    }

    pub fn run(&self, options: &[&str]) -> Run {
        Run::of(command().args(options).arg(&self.0).output().unwrap())
    }

    pub fn path(&self) -> &str {
        self.0.to_str().unwrap()
    }
}

impl Drop for Scratch {
    fn drop(&mut self) {
        let _ = std::fs::remove_file(&self.0);
    }
}

pub fn table(content: impl AsRef<[u8]>) -> Run {
    Scratch::new(content.as_ref()).run(&[])
}

pub fn csv(content: impl AsRef<[u8]>) -> Run {
    Scratch::new(content.as_ref()).run(&["--csv"])
}

pub fn by_position(content: impl AsRef<[u8]>) -> Run {
    Scratch::new(content.as_ref()).run(&["--by-position"])
}

/// The table of rows below the header.
pub fn table_of(rows: &[&str]) -> Run {
    table(format!("{HEADER}\n{}\n", rows.join("\n")))
}

/// The answer columns of an output of `--csv` that is separated by commas.
pub fn answers(out: &str) -> Vec<[String; 6]> {
    let columns = |line: &str| {
        let mut last: Vec<String> = line.rsplit(',').take(6).map(str::to_owned).collect();
        last.reverse();
        last.try_into().unwrap()
    };
    out.lines().skip(1).map(columns).collect()
}
