//! The program's standard streams where they fail, would make it wait, or are interrupted by a signal. The program ends with
//! status 0: a line on standard error tells of each failure, unless a signal ends the program, which its status tells.
use super::{printed, program_path, INPUT_CUT, OF_THE_PAPER};
use lvl_second::{Paper, Rules, INPUT_BYTES};
use std::fs::File;
use std::io::{Read, Write};
use std::os::fd::OwnedFd;
use std::os::unix::net::UnixStream;
use std::os::unix::process::ExitStatusExt;
use std::path::{Path, PathBuf};
use std::process::{Child, Command, Output, Stdio};
use std::time::Duration;

const INPUT_UNREAD: &str =
    "schedule: standard input could not be read to its end: nothing is printed\n";
const OUTPUT_LOST: &str =
    "schedule: standard output could not be written to its end: lines are lost\n";

/// The bytes whose lines are `OF_THE_PAPER`.
const TWO_LINES: [u8; 4] = [0x00, 0x00, 0x00, 0x80];

const SIGSEGV: i32 = 11;
const SIGCONT: i32 = 18;
const SIGSTOP: i32 = 19;
const SIGXFSZ: i32 = 25;

/// So long that it never passes: a socket with a timeout has its calls interrupted by a stop, one without has them resumed.
const NEVER: Duration = Duration::from_secs(3600);

/// Long enough that the program waits at some of them.
const PAUSE: Duration = Duration::from_millis(50);

extern "C" {
    fn kill(process: i32, signal: i32) -> i32;
}

/// Blank rows up to the limit: their lines are more than a pipe or a socket holds.
fn many_rows() -> Vec<u8> {
    vec![0; INPUT_BYTES]
}

fn with_streams(stdin: impl Into<Stdio>, stdout: impl Into<Stdio>) -> Child {
    Command::new(program_path())
        .stdin(stdin)
        .stdout(stdout)
        .stderr(Stdio::piped())
        .spawn()
        .expect("the program is built")
}

/// Starts the program by a line of shell, which names it `"$0"`.
fn by_shell(line: &str) -> Child {
    Command::new("sh")
        .arg("-c")
        .arg(line)
        .arg(program_path())
        .stdin(Stdio::piped())
        .stdout(Stdio::piped())
        .stderr(Stdio::piped())
        .spawn()
        .expect("a shell")
}

/// Hands over an input, if the program takes it, and waits for the end.
fn fed(mut program: Child, input: &[u8]) -> Output {
    if let Some(mut stdin) = program.stdin.take() {
        // A program that cannot read ends before it has taken anything.
        let _ = stdin.write_all(input);
    }
    program.wait_with_output().expect("the program ends")
}

fn assert_says(ended: &Output, said: &str) {
    assert_eq!(String::from_utf8_lossy(&ended.stderr), said);
    assert!(ended.status.success());
}

fn assert_prints_nothing_and_says(ended: &Output, said: &str) {
    assert_eq!(String::from_utf8_lossy(&ended.stdout), "");
    assert_says(ended, said);
}

fn dev_full() -> File {
    File::options()
        .write(true)
        .open("/dev/full")
        .expect("a device that is always full")
}

#[test]
fn a_full_disk_is_told() {
    let ended = fed(with_streams(Stdio::piped(), dev_full()), &TWO_LINES);
    assert_says(&ended, OUTPUT_LOST);
}

#[test]
fn nothing_to_print_is_not_lost() {
    assert_says(&fed(with_streams(Stdio::piped(), dev_full()), &[]), "");
    assert_says(&fed(by_shell(r#"exec "$0" >&-"#), &[]), "");
}

#[test]
fn a_cut_input_and_a_full_disk_are_both_told() {
    let input = vec![0; INPUT_BYTES + 1];
    let ended = fed(with_streams(Stdio::piped(), dev_full()), &input);
    assert_says(&ended, &format!("{INPUT_CUT}{OUTPUT_LOST}"));
}

/// A file of its own, which is removed with the value.
struct Scratch(PathBuf);

impl Scratch {
    fn new(name: &str) -> Scratch {
        Scratch(Path::new(env!("CARGO_TARGET_TMPDIR")).join(name))
    }

    fn bytes(&self) -> Vec<u8> {
        std::fs::read(&self.0).expect("the file is made")
    }
}

impl Drop for Scratch {
    fn drop(&mut self) {
        let _ = std::fs::remove_file(&self.0);
    }
}

/// Prints many rows into a file that may not grow beyond a limit, which lets a part of the lines through, as a disk does that
/// fills up.
fn with_limited_file(name: &str, prepare: &str) -> Output {
    let file = Scratch::new(name);
    let line = format!(
        r#"ulimit -f 1; {prepare} exec "$0" > '{}'"#,
        file.0.display()
    );
    let ended = fed(by_shell(&line), &many_rows());
    let written = file.bytes();
    assert!(!written.is_empty());
    let lines = Paper::schedule(&many_rows());
    assert!(lines.len() > written.len() && lines.as_bytes().starts_with(&written));
    ended
}

#[test]
fn a_disk_that_fills_up_is_told() {
    let ended = with_limited_file("filled-up", r#"trap "" XFSZ;"#);
    assert_says(&ended, OUTPUT_LOST);
}

#[test]
fn a_limit_of_file_size_ends_the_program_by_the_signal() {
    let ended = with_limited_file("limited", "");
    assert_eq!(ended.status.signal(), Some(SIGXFSZ));
    assert!(ended.stderr.is_empty());
}

/// A disk on a network may tell only of a file that is synced that it was full: here a library's `fdatasync` fails.
#[test]
fn a_disk_that_is_full_at_the_sync_is_told() {
    let source = Scratch::new("full-at-the-sync.c");
    let library = Scratch::new("full-at-the-sync.so");
    let lines = Scratch::new("full-at-the-sync.lines");
    let fails =
        "#include <errno.h>\nint fdatasync(int fd) { (void)fd; errno = EDQUOT; return -1; }\n";
    std::fs::write(&source.0, fails).expect("a file can be written");
    let compiled = Command::new("gcc")
        .args(["-shared", "-fPIC", "-o"])
        .args([&library.0, &source.0])
        .status();
    assert!(compiled.expect("a compiler").success());
    let line = format!(
        r#"LD_PRELOAD='{}' exec "$0" > '{}'"#,
        library.0.display(),
        lines.0.display()
    );
    assert_says(&fed(by_shell(&line), &TWO_LINES), OUTPUT_LOST);
    assert_says(&fed(by_shell(&line), &[]), "");
}

/// The way that README.md gives to a script.
#[test]
fn a_script_sees_that_all_went_well_or_that_it_did_not() {
    let file = Scratch::new("lines-of-a-script");
    let script = |input: &str, output: &str| {
        let line = format!(
            r#"if said=$("$0" {input} 2>&1 > {output}) && [ -z "$said" ]; then echo well; else echo not; fi"#
        );
        let ended = fed(by_shell(&line), &TWO_LINES);
        String::from_utf8(ended.stdout).expect("text")
    };
    let path = format!("'{}'", file.0.display());
    assert_eq!(script("", &path), "well\n");
    assert_eq!(file.bytes(), OF_THE_PAPER.as_bytes());
    assert_eq!(script("<&-", &path), "not\n");
    assert_eq!(script("", "/dev/full"), "not\n");
    assert_eq!(script("< /dev/zero", &path), "not\n");
}

/// README.md says 1.6 MB, beside arguments and environment.
#[test]
fn the_stack_that_the_program_needs() {
    let with_stack = |kilobytes: u32| {
        let line = format!(r#"ulimit -s {kilobytes}; exec env -i "$0""#);
        fed(by_shell(&line), &many_rows())
    };
    let enough = with_stack(1600);
    assert_eq!(
        String::from_utf8_lossy(&enough.stdout),
        Paper::schedule(&many_rows())
    );
    assert_says(&enough, "");
    let too_little = with_stack(1400);
    assert_eq!(too_little.status.signal(), Some(SIGSEGV));
    assert!(too_little.stdout.is_empty() && too_little.stderr.is_empty());
}

#[test]
fn a_closed_output_is_told() {
    assert_says(&fed(by_shell(r#"exec "$0" >&-"#), &TWO_LINES), OUTPUT_LOST);
}

/// A stream whose other end is closed.
fn without_reader() -> OwnedFd {
    UnixStream::pair().expect("a pair of sockets").0.into()
}

/// The program ignores the signal from its start on: a reader that is gone is told as any failure is.
#[test]
fn a_reader_that_is_gone_is_told() {
    let ended = fed(with_streams(Stdio::piped(), without_reader()), &TWO_LINES);
    assert_says(&ended, OUTPUT_LOST);
    let pipeline = by_shell(r#"{ "$0"; echo $? >&2; } | :"#);
    let ended = fed(pipeline, &many_rows());
    assert_eq!(
        String::from_utf8_lossy(&ended.stderr),
        format!("{OUTPUT_LOST}0\n")
    );
}

#[test]
fn a_reader_that_is_gone_is_told_where_the_signal_is_ignored() {
    let ended = Command::new("sh")
        .args(["-c", r#"trap "" PIPE; exec "$0""#])
        .arg(program_path())
        .stdin(Stdio::piped())
        .stdout(without_reader())
        .stderr(Stdio::piped())
        .spawn()
        .map(|program| fed(program, &TWO_LINES))
        .expect("a shell");
    assert_says(&ended, OUTPUT_LOST);
}

#[test]
fn a_folder_as_input_is_told() {
    let folder = File::open(env!("CARGO_MANIFEST_DIR")).expect("a folder can be opened");
    let ended = fed(with_streams(folder, Stdio::piped()), &[]);
    assert_prints_nothing_and_says(&ended, INPUT_UNREAD);
}

#[test]
fn a_closed_input_is_told() {
    let ended = fed(by_shell(r#"exec "$0" <&-"#), &[]);
    assert_prints_nothing_and_says(&ended, INPUT_UNREAD);
}

#[test]
fn an_unwritable_error_stream_does_not_keep_the_program() {
    for line in [r#"exec "$0" <&- 2>&-"#, r#"exec "$0" <&- 2>/dev/full"#] {
        assert_prints_nothing_and_says(&fed(by_shell(line), &[]), "");
    }
}

/// An input whose reads fail after these bytes: a socket is reset where its other end is closed with something unread.
fn input_that_breaks_off(bytes: &[u8]) -> OwnedFd {
    let (mut ours, mut theirs) = UnixStream::pair().expect("a pair of sockets");
    theirs.write_all(b"unread").expect("the socket holds it");
    ours.write_all(bytes).expect("the socket holds it");
    theirs.into()
}

/// Lines of the bytes before the failure would look like a whole schedule.
#[test]
fn an_input_that_breaks_off_prints_nothing() {
    for bytes in [&[][..], &TWO_LINES, &many_rows()] {
        let ended = fed(
            with_streams(input_that_breaks_off(bytes), Stdio::piped()),
            &[],
        );
        assert_prints_nothing_and_says(&ended, INPUT_UNREAD);
    }
}

#[test]
fn a_slow_writer_of_a_non_blocking_input_is_waited_for() {
    let (mut ours, theirs) = UnixStream::pair().expect("a pair of sockets");
    theirs.set_nonblocking(true).expect("a socket can be set");
    let program = with_streams(OwnedFd::from(theirs), Stdio::piped());
    for byte in TWO_LINES {
        std::thread::sleep(PAUSE);
        ours.write_all(&[byte]).expect("the program reads");
    }
    std::thread::sleep(PAUSE);
    drop(ours);
    let ended = fed(program, &[]);
    assert_eq!(String::from_utf8_lossy(&ended.stdout), OF_THE_PAPER);
    assert_says(&ended, "");
}

/// The program with many rows to print into a socket, the other end of that, and its lines.
fn printing_many_rows(prepare: impl Fn(&UnixStream)) -> (Child, UnixStream, String) {
    let (ours, theirs) = UnixStream::pair().expect("a pair of sockets");
    prepare(&theirs);
    let mut program = with_streams(Stdio::piped(), OwnedFd::from(theirs));
    let mut stdin = program.stdin.take().expect("standard input is piped");
    stdin.write_all(&many_rows()).expect("the program reads");
    (program, ours, printed(&many_rows()))
}

fn assert_receives(mut program: Child, mut ours: UnixStream, lines: &str) {
    assert!(program.try_wait().expect("its state is known").is_none());
    let mut received = String::new();
    ours.read_to_string(&mut received).expect("text");
    assert!(received == lines);
    assert_says(&fed(program, &[]), "");
}

#[test]
fn a_slow_reader_of_a_non_blocking_output_is_waited_for() {
    let (program, ours, lines) = printing_many_rows(|theirs| {
        theirs.set_nonblocking(true).expect("a socket can be set");
    });
    std::thread::sleep(4 * PAUSE);
    assert_receives(program, ours, &lines);
}

/// What the system tells of a process, from its state on.
fn facts_of(process: u32) -> Vec<String> {
    let facts = std::fs::read_to_string(format!("/proc/{process}/stat")).expect("it runs");
    let after_name = facts.rsplit(") ").next().expect("a name in brackets");
    after_name.split(' ').map(str::to_owned).collect()
}

/// `S` where a process waits in a call, `T` where it is stopped, `Z` where it has ended.
fn state_of(process: u32) -> String {
    facts_of(process).swap_remove(0)
}

/// The processor time that a process has used, in hundredths of a second.
fn time_used_by(process: u32) -> u64 {
    let facts = facts_of(process);
    let number = |at: usize| facts[at].parse::<u64>().expect("a number");
    number(11) + number(12)
}

/// Most of the time the program sleeps: of 60 hundredths of a second it uses fewer than 20.
#[test]
fn a_waiting_program_leaves_the_processor_to_others() {
    let (ours, theirs) = UnixStream::pair().expect("a pair of sockets");
    theirs.set_nonblocking(true).expect("a socket can be set");
    let program = with_streams(OwnedFd::from(theirs), Stdio::piped());
    std::thread::sleep(12 * PAUSE);
    assert!(time_used_by(program.id()) < 20);
    drop(ours);
    assert_prints_nothing_and_says(&fed(program, &[]), "");
}

fn wait_until(process: u32, awaited: &str) {
    loop {
        let state = state_of(process);
        if state == awaited {
            return;
        }
        assert!(state != "Z", "the program has ended");
        std::thread::sleep(Duration::from_millis(1));
    }
}

/// Stops and resumes a program that waits in a call, often enough that some of the calls are its reads or writes, not the sleep
/// of a millisecond between them.
fn interrupt(program: &Child) {
    let process = program.id();
    let send = |signal| assert_eq!(unsafe { kill(process as i32, signal) }, 0);
    for _ in 0..10 {
        std::thread::sleep(Duration::from_millis(5));
        wait_until(process, "S");
        send(SIGSTOP);
        wait_until(process, "T");
        send(SIGCONT);
    }
    wait_until(process, "S");
}

#[test]
fn an_interrupted_read_is_made_again() {
    let (mut ours, theirs) = UnixStream::pair().expect("a pair of sockets");
    theirs.set_read_timeout(Some(NEVER)).expect("a timeout");
    let program = with_streams(OwnedFd::from(theirs), Stdio::piped());
    interrupt(&program);
    ours.write_all(&TWO_LINES[..1]).expect("the program reads");
    interrupt(&program);
    ours.write_all(&TWO_LINES[1..]).expect("the program reads");
    drop(ours);
    let ended = fed(program, &[]);
    assert_eq!(String::from_utf8_lossy(&ended.stdout), OF_THE_PAPER);
    assert_says(&ended, "");
}

#[test]
fn an_interrupted_write_is_made_again() {
    let (program, ours, lines) = printing_many_rows(|theirs| {
        theirs.set_write_timeout(Some(NEVER)).expect("a timeout");
    });
    interrupt(&program);
    assert_receives(program, ours, &lines);
}
