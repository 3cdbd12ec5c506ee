//! Lines that say in which units the columns are: they have to be those of the cells.
use crate::columns::{is_number, Column, Columns};
use crate::fields::Fields;
use crate::header::has_number;
use crate::headings::{self, Heading, Meaning};
use crate::lines::Line;
use crate::schema::Cell;
use crate::text::shown;
use crate::units::{self, Unit};

/// How much of a field is quoted.
const QUOTED: usize = 40;

/// So many units in a line are no chance, not even beside numbers.
const UNITS_OF_A_LINE: usize = 2;

/// The numbers of width and height in a row: a line with numbers there is a row, and a unit in it stands in the place of a number.
const SECTION: [usize; 2] = [6, 7];

/// The numbers of lengths along a member in a row; a span has none.
const LENGTHS: [usize; 3] = [11, 12, 17];

/// What is wrong with a line of units below the header, if it is one.
pub fn below_header(line: &Line, columns: &Columns) -> Option<String> {
    let fields = fields_of_cells(line, columns);
    let is_of_section = |field: &&UnitField| field.is_of_section();
    let is_number = |field: &UnitField| is_number(field.text.as_bytes(), columns.separator);
    let mut section = fields.iter().filter(is_of_section).peekable();
    if section.peek().is_some() && section.all(is_number) {
        return None;
    }
    let units: Vec<&UnitField> = fields
        .iter()
        .filter(|field| units::is_any(&field.words) && !field.says_no_unit())
        .collect();
    let is_without_numbers = !has_number(line.text, columns.separator);
    if is_without_numbers || units.len() >= UNITS_OF_A_LINE {
        let foreign = |field: &&UnitField| {
            !units::is(field.cell.words.unit, &field.words) || field.counts_a_ratio()
        };
        if let Some(field) = units.into_iter().find(foreign) {
            return Some(field.problem(line));
        }
    }
    let is_without_cells = columns.numbers_from(0, line.text) == 0;
    foreign_load_in(line, columns).filter(|_| is_without_cells)
}

/// What is wrong with a line above the header: a unit of loads that no cell has, or above a cell any unit that none has; and, where a heading
/// leaves its unit open, a unit in which its column might be.
pub fn above_header(line: &Line, header: &Line, columns: &Columns) -> Option<String> {
    let of_cells = || {
        let fields = fields_of_cells(line, columns);
        let foreign = fields
            .iter()
            .find(|field| field.ends_in_foreign_unit(columns));
        foreign.map(|field| field.problem(line))
    };
    foreign_load_in(line, columns)
        .or_else(of_cells)
        .or_else(|| of_open_headings(line, header, columns))
}

/// A field that speaks of a unit, where the headings of the columns that might be in it state none of their own.
fn of_open_headings(line: &Line, header: &Line, columns: &Columns) -> Option<String> {
    let open = fields_of_cells(header, columns)
        .into_iter()
        .filter(|heading| !heading.states_its_unit());
    let doubts: Vec<_> = open
        .filter_map(|heading| {
            let unit = mistaken_for(heading.cell)?;
            Some((unit, heading))
        })
        .collect();
    let mut fields = Fields::of(line.text, columns.separator).enumerate();
    fields.find_map(|(place, field)| {
        let text = String::from_utf8_lossy(&field);
        let words = headings::words_of(&text);
        let (_, heading) = doubts
            .iter()
            .find(|(unit, _)| units::has_one_of(&words, &[*unit]))?;
        let wanted = heading.cell.unit_wanted();
        let problem = format!("{wanted}; where it is, say so in its heading");
        Some(in_column(line, place, &text, &problem))
    })
}

/// The unit in which a cell may have been typed, so that its number lies within its range all the same.
fn mistaken_for(cell: &Cell) -> Option<Unit> {
    let is_long = cell.number.map_or(true, |number| LENGTHS.contains(&number));
    match cell.words.unit {
        "mm" if is_long => Some(Unit::Centimetres),
        "N/m" => Some(Unit::AreaLoad),
        _ => None,
    }
}

/// A field of any column that speaks of a unit of loads or forces that no cell has.
fn foreign_load_in(line: &Line, columns: &Columns) -> Option<String> {
    let mut fields = Fields::of(line.text, columns.separator).enumerate();
    fields.find_map(|(place, field)| {
        let text = String::from_utf8_lossy(&field);
        let words = words_beside_symbols(&text, columns);
        let has_load = units::has_one_of(&words, columns.schema.foreign_loads);
        has_load.then(|| in_column(line, place, &text, columns.loads_wanted()))
    })
}

/// A text's words, but for headings in themselves that end in a small letter: Mn is no unit, and MN is one.
fn words_beside_symbols(text: &str, columns: &Columns) -> Vec<String> {
    let is_known = |word: &str| matches!(columns.meaning(word), Meaning::Known(_));
    let mut words = units::joined(&headings::typed_words(text));
    words.retain(|word| !(word.ends_with(char::is_lowercase) && is_known(word)));
    headings::small(&words)
}

/// A field in the column of a cell.
struct UnitField {
    place: usize,
    cell: &'static Cell,
    text: String,
    words: Vec<String>,
}

fn fields_of_cells(line: &Line, columns: &Columns) -> Vec<UnitField> {
    let fields = Fields::of(line.text, columns.separator);
    let placed = columns.iter().zip(fields).enumerate();
    placed
        .filter_map(|(place, (column, field))| {
            let Column::Holds(Heading::Cell(cell)) = column else {
                return None;
            };
            let text = String::from_utf8_lossy(&field).into_owned();
            let words = headings::words_of(&text);
            Some(UnitField {
                place,
                cell: columns.schema.cell(cell),
                text,
                words,
            })
        })
        .collect()
}

impl UnitField {
    fn is_of_section(&self) -> bool {
        let number = self.cell.number;
        number.is_some_and(|number| SECTION.contains(&number))
    }

    fn says_no_unit(&self) -> bool {
        units::is("", &self.words) && !self.counts_a_ratio()
    }

    /// Whether the text has pieces for a unit, and the cell is no count.
    fn counts_a_ratio(&self) -> bool {
        self.cell.names.is_ratio && units::are_pieces(&self.words)
    }

    /// Whether the heading ends in the unit of its cell.
    fn states_its_unit(&self) -> bool {
        units::end_in(self.cell.words.unit, &self.words)
    }

    /// Whether the text is, or ends after a comma or in brackets with, a unit that no cell has, above a cell that has one,
    /// or pieces above one that is no count.
    ///
    /// A symbol, as m in "b, h, m", is no unit.
    fn ends_in_foreign_unit(&self, columns: &Columns) -> bool {
        let ending = self.text.rsplit([',', '(', '[']).next().unwrap_or("");
        let is_symbol = matches!(columns.meaning(ending), Meaning::Known(_));
        let ending = headings::words_of(ending);
        let is_foreign = units::is_foreign(&ending, columns) && !self.cell.words.unit.is_empty();
        let is_count = self.cell.names.is_ratio && units::are_pieces(&ending);
        (is_foreign || is_count) && !is_symbol
    }

    fn problem(&self, line: &Line) -> String {
        in_column(line, self.place, &self.text, &self.cell.unit_wanted())
    }
}

fn in_column(line: &Line, place: usize, text: &str, problem: &str) -> String {
    format!(
        "line {}, column {}, \"{}\": {problem}",
        line.number,
        place + 1,
        shown(text, QUOTED)
    )
}
