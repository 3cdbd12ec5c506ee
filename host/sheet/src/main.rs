//! `sheet FILE.csv`: the verdicts on a sheet of members or floor beams, as a table or as columns beside the input, their
//! design strengths, or its rows packed.
use lvl_sheet::answer_columns::{AnswerColumns, Lettering};
use lvl_sheet::encoding::Encoding;
use lvl_sheet::input::{self, Input};
use lvl_sheet::options::{self, Command, Destination, Form, Request};
use lvl_sheet::output;
use lvl_sheet::packed_rows::PackedRows;
use lvl_sheet::progress::Progress;
use lvl_sheet::table::Table;
use lvl_sheet::tally::Tally;
use lvl_sheet::text::shown_path;
use lvl_sheet::{go_through, notes};
use std::fs;
use std::io::{self, ErrorKind, IsTerminal, Write};
use std::process::ExitCode;

const ALL_PASS: u8 = 0;
const SOME_DO_NOT: u8 = 1;
const NOT_JUDGED: u8 = 2;

fn main() -> ExitCode {
    let code = match options::read(std::env::args_os().skip(1)) {
        Ok(Command::Help) => help(),
        Ok(Command::GoThrough(request)) => match answered(&request) {
            Ok(tally) if tally.is_clean() => ALL_PASS,
            Ok(_) => SOME_DO_NOT,
            Err(Failure::Said(message)) => complain(&message),
            Err(Failure::ReaderLeft) => NOT_JUDGED,
        },
        Err(message) => complain(&message),
    };
    ExitCode::from(code)
}

/// Why there is no answer, or none to its end.
enum Failure {
    Said(String),
    /// Whoever read the table has seen enough.
    ReaderLeft,
}

fn help() -> u8 {
    match io::stdout().write_all(options::help().as_bytes()) {
        Ok(()) => ALL_PASS,
        Err(_) => NOT_JUDGED,
    }
}

/// Reads the sheet, answers it as a whole, and shows the count: below a table, otherwise on the error output.
fn answered(request: &Request) -> Result<Tally, Failure> {
    let of_sheet = |problem: String| of_sheet(request, &problem);
    let input = input::read(&request.source).map_err(of_sheet)?;
    refuse_to_overwrite(&input, request).map_err(of_sheet)?;
    let (tally, mut answers) = gone_through(&input.bytes, request).map_err(of_sheet)?;
    if tally.rows == 0 {
        return Err(of_sheet("there are no rows".to_owned()));
    }
    let count = count(&tally, request.form);
    if request.form.is_table() {
        answers.extend(format!("\n{count}\n").into_bytes());
    }
    deliver(&answers, &request.destination)?;
    if !request.form.is_table() {
        notes::say(&count);
    }
    Ok(tally)
}

fn count(tally: &Tally, form: Form) -> String {
    match form {
        Form::Table | Form::Csv => tally.judged(),
        Form::Strengths => tally.with_strengths(),
        Form::Packed => tally.packed(),
    }
}

/// An error where the answers would take the place of the sheet: only `--csv` writes it again.
fn refuse_to_overwrite(input: &Input, request: &Request) -> Result<(), String> {
    let (target, problem) = match &request.destination {
        Destination::StandardOutput => (
            output::of_standard_output(),
            "standard output leads into the sheet itself, so nothing is written; -o FILE replaces a file when all is done",
        ),
        Destination::File(path) if request.form != Form::Csv => (
            fs::metadata(path),
            "-o names the sheet itself, and only --csv writes a sheet again: nothing is written",
        ),
        Destination::File(_) => return Ok(()),
    };
    match target {
        Ok(target) if input.is_of(&target) => Err(problem.to_owned()),
        _ => Ok(()),
    }
}

/// The answers in the form asked for; an error where the sheet is not clear.
fn gone_through(bytes: &[u8], request: &Request) -> Result<(Tally, Vec<u8>), String> {
    let encoding = Encoding::of(bytes);
    notes::show(encoding.note().as_slice());
    let text = encoding.decoded(bytes);
    let columns = &request.columns;
    let schema = columns.schema;
    let progress = &mut Progress::new(io::stderr().is_terminal());
    let answers = match request.form {
        Form::Table => {
            let on_request = schema.on_request.as_ref();
            let on_request = on_request.map(|on_request| &on_request.verdict_table);
            let report = Table::new(schema, &schema.verdict_table).with(on_request);
            go_through(&text, columns, report, progress)
        }
        Form::Strengths => {
            let report = Table::new(schema, &schema.strength_table);
            go_through(&text, columns, report, progress)
        }
        Form::Csv => {
            let report = AnswerColumns::new(lettering(encoding, &request.destination));
            go_through(&text, columns, report, progress)
        }
        Form::Packed => go_through(&text, columns, PackedRows::default(), progress),
    };
    progress.clear();
    answers
}

fn lettering(encoding: Encoding, destination: &Destination) -> Lettering {
    match destination {
        Destination::StandardOutput if io::stdout().is_terminal() => Lettering::Visible,
        _ => Lettering::Encoded(encoding),
    }
}

fn deliver(answers: &[u8], destination: &Destination) -> Result<(), Failure> {
    match destination {
        Destination::StandardOutput => {
            output::to_standard_output(answers).map_err(|error| lost("the answers", error))
        }
        Destination::File(path) => {
            output::to_file(path, answers).map_err(|error| lost(&shown_path(path), error))
        }
    }
}

fn of_sheet(request: &Request, problem: &str) -> Failure {
    Failure::Said(format!("{}: {problem}", request.source.name()))
}

fn lost(what: &str, error: io::Error) -> Failure {
    match error.kind() {
        ErrorKind::BrokenPipe => Failure::ReaderLeft,
        _ => Failure::Said(format!("{what} cannot be written: {error}")),
    }
}

fn complain(message: &str) -> u8 {
    notes::say(&format!("sheet: {message}"));
    NOT_JUDGED
}
