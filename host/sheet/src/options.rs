//! The command line.
use crate::columns::ColumnOptions;
use crate::input::Source;
use crate::opening::LOOKED_AT;
use crate::schema::{Cell, Schema};
use crate::text::{shown, width};
use crate::{floor_beams, heading_list, members};
use std::ffi::OsString;
use std::io::{self, IsTerminal};
use std::path::PathBuf;

pub enum Command {
    Help,
    GoThrough(Request),
}

/// What is to be made of a sheet.
pub struct Request {
    pub source: Source,
    pub destination: Destination,
    pub form: Form,
    pub columns: ColumnOptions,
}

#[derive(PartialEq, Eq)]
pub enum Destination {
    StandardOutput,
    File(PathBuf),
}

#[derive(Clone, Copy, PartialEq, Eq)]
pub enum Form {
    Table,
    Strengths,
    Csv,
    Packed,
}

const USAGE: &str = "\
usage: sheet [--floor] [--csv | --pack | --strengths] [-o FILE]
             [--skip HEADING]... [--by-position] FILE.csv
       (- for standard input, --help for more)";

/// How much of an argument is quoted.
const QUOTED: usize = 60;

/// The arguments, sorted.
#[derive(Default)]
struct Sorted {
    help: bool,
    floor: bool,
    forms: Vec<Form>,
    destinations: Vec<Destination>,
    columns: ColumnOptions,
    sources: Vec<Source>,
}

/// What the arguments after the program's name ask for, or what is wrong with them.
pub fn read(arguments: impl Iterator<Item = OsString>) -> Result<Command, String> {
    let sorted = sort(arguments)?;
    if sorted.help {
        return Ok(Command::Help);
    }
    request(sorted).map(Command::GoThrough)
}

fn sort(mut arguments: impl Iterator<Item = OsString>) -> Result<Sorted, String> {
    let mut sorted = Sorted::default();
    while let Some(argument) = arguments.next() {
        match argument.to_str() {
            Some("--") => {
                let files = arguments.by_ref().map(PathBuf::from);
                sorted.sources.extend(files.map(Source::File));
            }
            Some("--help" | "-h") => sorted.help = true,
            Some("--floor") => sorted.floor = true,
            Some("--csv") => sorted.forms.push(Form::Csv),
            Some("--pack") => sorted.forms.push(Form::Packed),
            Some("--strengths") => sorted.forms.push(Form::Strengths),
            Some("-o") => sorted.destinations.push(destination(arguments.next())?),
            Some("--by-position") => sorted.columns.by_position = true,
            Some("--skip") => sorted.columns.skip.push(heading(arguments.next())?),
            Some("-") => sorted.sources.push(Source::StandardInput),
            _ if argument.as_encoded_bytes().starts_with(b"-") => {
                let option = shown(&argument.to_string_lossy(), QUOTED);
                return wrong(&format!("there is no option {option}"));
            }
            _ => sorted.sources.push(Source::File(argument.into())),
        }
    }
    Ok(sorted)
}

fn request(mut sorted: Sorted) -> Result<Request, String> {
    sorted.forms.dedup();
    if sorted.floor {
        sorted.columns.schema = floor_beams::schema();
    }
    let Some(source) = sorted.sources.pop() else {
        return Err(USAGE.to_owned());
    };
    let request = Request {
        source,
        destination: sorted
            .destinations
            .pop()
            .unwrap_or(Destination::StandardOutput),
        form: sorted.forms.pop().unwrap_or(Form::Table),
        columns: sorted.columns,
    };
    if !sorted.sources.is_empty() {
        return wrong("one sheet at a time");
    }
    if !sorted.forms.is_empty() {
        return wrong("--csv, --pack and --strengths are three forms: one at a time");
    }
    if !sorted.destinations.is_empty() {
        return wrong("one -o FILE at a time");
    }
    if sorted.floor && request.form == Form::Packed {
        return wrong("--pack packs rows, and a floor beam is no row: it has loads and a span in place of cells");
    }
    if request.columns.by_position && !request.columns.skip.is_empty() {
        return wrong("--skip goes by headings, and --by-position passes them by");
    }
    if request.shows_bytes() {
        return wrong("packed rows are bytes and not for a terminal: use -o FILE or a pipe");
    }
    Ok(request)
}

impl Form {
    /// Whether people read it, with the count below.
    pub fn is_table(self) -> bool {
        matches!(self, Form::Table | Form::Strengths)
    }
}

impl Request {
    /// Whether packed rows would go to a terminal.
    fn shows_bytes(&self) -> bool {
        self.form == Form::Packed
            && self.destination == Destination::StandardOutput
            && io::stdout().is_terminal()
    }
}

fn wrong<T>(message: &str) -> Result<T, String> {
    Err(format!("{message}\n{USAGE}"))
}

/// The file after `-o`.
fn destination(argument: Option<OsString>) -> Result<Destination, String> {
    match argument {
        Some(file) if !file.is_empty() && file != "-" => Ok(Destination::File(file.into())),
        _ => wrong("-o needs a file; without it the answers go to standard output"),
    }
}

/// The heading after `--skip`.
fn heading(argument: Option<OsString>) -> Result<String, String> {
    let heading = argument.map(|argument| argument.to_string_lossy().into_owned());
    match heading.filter(|heading| !heading.trim().is_empty()) {
        Some(heading) => Ok(heading),
        None => wrong("--skip needs a heading"),
    }
}

pub fn help() -> String {
    let [members, beams] = [members::schema(), floor_beams::schema()];
    HELP.replace("{cells}\n", &cell_list(members))
        .replace("{headings}\n", &heading_list::all(members))
        .replace("{last}", &members.cells.len().to_string())
        .replace("{floor cells}\n", &cell_list(beams))
        .replace("{floor headings}\n", &heading_list::all(beams))
        .replace("{looked_at}", &LOOKED_AT.to_string())
}

/// The cells in their order, a line each.
fn cell_list(schema: &Schema) -> String {
    let widest = |text: fn(&Cell) -> &'static str| {
        let texts = schema.cells.iter().map(text);
        texts.map(width).max().unwrap_or(0)
    };
    let names = widest(|cell| cell.words.name);
    let units = widest(|cell| cell.words.unit);
    let line = |cell: &Cell| {
        let (label, words) = (cell.label(), cell.words);
        format!(
            "  {label:>2}  {:<names$}  {:<units$}  {}\n",
            words.name, words.unit, words.range
        )
    };
    schema.cells.iter().map(line).collect()
}

const HELP: &str = "\
Checks LVL members and steel dowel joints to SP 64.13330, one member a row, or
floor beams by their loads, one beam a row.

usage: sheet [--floor] [--csv | --pack | --strengths] [-o FILE]
             [--skip HEADING]... [--by-position] FILE.csv
       - in place of FILE.csv reads standard input

  --floor         the sheet lists floor beams with their loads and spans, as the
                  section on floor beams says
  --csv           writes the sheet itself, with the answers in columns after its
                  last one, in place of the table; the count of rows goes to the
                  error output
  --pack          writes the rows packed, as the program schedule reads them; a
                  row that cannot be packed is a blank row there, with a note
  --strengths     lists the strengths that the checks of each row use, in kPa and
                  with what rounding dropped, in place of the table of verdicts
  -o FILE         writes to a file: a new one takes the old one's place when all
                  is done, and until then the old one stands as it is; with --csv
                  it may be the sheet itself
  --skip HEADING  passes over a column of your own: remarks, drawing
  --by-position   takes the cells in their order, whatever headings and units say
  --              ends the options: what follows is a file
  --help          this text

The sheet. A line is a row. A field in quotes may hold line breaks, but for a cell;
a row with a quote that is not closed is refused. Fields are separated by commas,
semicolons or tabs: as a first line sep=; says, else as the header is best
understood, else whichever the first line has most of. The text is UTF-8; UTF-16
and Windows-1251 are recognised, with a note where no mark says so, and --csv
writes them again.

The header is a line without numbers that has two known headings at least. It is
looked for in the first {looked_at} lines; what stands above it is passed over, with a
note. Each heading says what its column holds, in any order; a cell without a
column is blank. A row with anything in a column without a heading is refused.
What is not clear stops the sheet, and nothing is written: a heading that is not
known, or is there twice; units other than the cells', in the header or in a line
above or below it; a second header, of other columns; a line above the header that
may be a member; a quote that may have been closed lines below, with members
between.

Without a header, or with --by-position, the order decides: the members' names,
unless the first column begins with a number or is headed \"kind\"; then follow
the {last} cells in this order. Columns missing at the end are blank cells, and a
row with anything in a column past cell {last} is refused.

{cells}

Headings: a name of this list, in any case, alone or with the cell's own unit
after it: b, b mm, M [N·mm], Q (Н). A word may have its symbol beside it: width b.
Another unit than the cell's, as in N kN, stops the sheet.

{headings}

Kinds: 1 tension, 2 bending, 3 compression, 4 compression with bending, 5 tension
with bending. Grades: 1 K45, 2 K40, 3 K35. Regimes: 1 to 11 for А Б В Г Д Е Ж И К
Л М; К belongs to fire and is refused.

Numbers may have a decimal point, spaces between thousands and an exponent; a
decimal comma too, where fields are not separated by commas. A mark before exactly
three digits, as in 20.000, is refused, since both 20 and 20000 may be meant. All
cells have to be whole numbers. What is not a number is shown to the add-in as
such, and refused.
The answers of an earlier --csv are written anew, in their columns. In --csv, text
that a spreadsheet would compute (=, +, -, @ first) gets an apostrophe before it.

The table. Utilisation is rounded up to a tenth of a percent, so that a pass is at
most 100.0 and a fail above it. Checks of layout, slenderness and joint length are
yes or no and have no figure. All judgement is the proved add-in's.

The strengths, with --strengths. A design strength R = value of Table 7 × t × w × o /
10000000, with the value in kPa, t and w in hundredths and o in thousandths, is
rounded down to whole kPa. It is listed as 24710 + 0.4000000: what the checks use,
and what rounding dropped. Their sum is R in full, exactly, since it has seven
decimals at most. Beside it stands what R follows from: the grade; the regime, by
its letter and code, for t; the moisture for w; the office factor o.
Check 5, net tension, and 6, tension of side pieces, use tension; 7, bending, uses
bending; 8, shear, uses shear; 9 and 10, buckling, use compression; 11 uses bending,
with compression in kind 4 and with tension in kind 5. A strength that no check of
the row's kind uses is a dash. Whether a row passes or fails, it has the same
strengths; one that is refused has dashes, and its reason at the end of the line.
What was typed and cannot be shown is a question mark.

Floor beams, with --floor: one simply supported beam a row, with loads and a span
in place of a moment and a shear force. All that is said above holds, but for
--pack, since a floor beam is no row of cells. It has these cells, in this order;
those with numbers are a member's, and the last two may be missing:

{floor cells}

The total load q, both loads together, has to be 100 to 100000 N/m. Where more than
80 percent of it is permanent or long-term the regime is Б, and up to that В.
M = q × span² / 8000 in N·mm and Q = q × span / 2000 in N, both rounded up, are
checked as for a member of kind 2: strength alone, without lateral stability, and
without sag unless Mn or n is filled. Loads are design values, with their safety
factors, the beam's own weight among the first. A load, q or a span that is blank,
no whole number or outside its range is refusal 8, before all others. The table
shows span, section, q, the regime by its letter and code, and M and Q in kN·m and
kN, rounded up to two decimals; --csv has M and Q whole, in N·mm and N. --strengths
shows the regime that was found.

Sag is checked beside strength where Mn or n is filled: leave both blank where no sag
is wanted. It may be L / n on a span L. Mn is the greatest moment of the beam's
unfactored loads, the same loads as typed, with their safety factors at 1. It has to
be in N·mm, and a note says where it is above M or below a tenth of it. n is a plain
number, such as 150, 200 or 250, and a small letter in its heading, since N is a
force. With the grade's modulus of elasticity in MPa, and e and w in hundredths for
regime and moisture, E = modulus × e × w / 10000 and Mf = 4 × E × b × h³ /
(5 × L × n), both rounded down; the shear factor is 1000000 + 19200000 × h² / L²,
its second part rounded up, and the utilisation is Mn × shear factor / Mf, rounded
up. Mn or n that is blank beside the other, no whole number or outside its range is
refusal 10, of the sag alone.
A beam fails if either fails. The table shows the greater utilisation and its check,
bending, shear or sag, and before them both verdicts, strength with the number of
its check; --csv also has these figures. Where sag is refused, a beam that fails in
strength fails, and any other counts as refused. A sheet in which no beam asks for
sag has no columns of it; in one where some do, the others have a dash, in --csv
nothing. A beam that asks and is refused itself has \"not judged\" there. Where the
order decides, Mn and n are two columns after height h; a lone number there is Mn,
but not where a row has a remark in its place.

Loads are in N/m and moments in N·mm alone: a heading or a line that speaks of kN/m,
кгс/м or кг·м stops the sheet, and so does a title that speaks of loads on an area,
or of cm, above headings without units. A first line of words alone that is not known
as a header stops it too. Where the order decides, the first column holds the beams'
names, unless it begins with a number or its heading has \"load\" or \"нагрузк\" in
it. Headings that are known with --floor:

{floor headings}

Exit code: 0 every row passes, or is packed; 1 a row fails or is refused; 2 the
sheet cannot be read, has no rows, or its answers cannot be written. With
--strengths a member that fails is no failure: 0 no row is refused, 1 a row is.
";
