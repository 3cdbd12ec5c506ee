//! What a sheet lists, members or floor beams: one description by which it is read, judged and answered.
use crate::answers::Answer;
use crate::heading_names::{self, CellNames};
use crate::headings::{self, Heading};
use crate::judgement::Judgement;
use crate::row::SheetRow;
use crate::table::Layout;
use crate::units::Unit;
use crate::used_strengths::UsedStrengths;
use crate::words::{self, CellWords};
use crate::{floor_beams, members};
use lvl_addin::answer::Refusal;
use std::collections::HashMap;
use std::fmt;
use std::sync::OnceLock;

pub struct Schema {
    /// What a row describes, in a word.
    pub one: &'static str,
    /// The same as the table heads the names.
    pub name_heading: &'static str,
    /// The sheet and how it is asked for.
    pub asked_for: &'static str,
    /// The headings of the column with the names.
    pub names: Vec<&'static str>,
    /// In the order in which the add-in takes them, and last those of what is on request. Each may be without a column, and is then blank.
    pub cells: Vec<Cell>,
    /// The place of the cell with the kind, from 1, if there is one.
    pub kind: Option<usize>,
    /// A part of the first heading that says, where the order decides, that it heads the first cell and no names.
    pub in_first_cell: &'static [&'static str],
    /// Units in which loads and forces would be typed far too small, so that no line may speak of them.
    pub foreign_loads: &'static [Unit],
    /// So many fields of words, and no number, make a first line a header, though no heading is known; none where it is a row all the same.
    pub words_of_a_header: Option<usize>,
    /// In which units loads and forces have to be.
    pub loads_wanted: &'static str,
    pub judge: Ask<Judgement>,
    /// Refuses what `judge` refuses, and nothing else.
    pub strengths: Ask<UsedStrengths>,
    /// Why a row is refused where no cell is named.
    pub whole_row_reason: fn(Refusal, &SheetRow) -> String,
    /// Last are those of what is on request.
    pub answers: Vec<Answer>,
    pub verdict_table: Layout<Judgement>,
    pub strength_table: Layout<UsedStrengths>,
    /// What is answered where a row asks for it, if there is such a thing.
    pub on_request: Option<OnRequest>,
    /// What the headings name, by their keys.
    pub by_key: OnceLock<HashMap<String, Heading>>,
}

/// What is answered where a row asks for it, by filling a cell that it need not fill. A sheet in which none does has nothing of it.
pub struct OnRequest {
    /// How many cells stand before its own.
    pub cells_before: usize,
    /// How many answers stand before its own.
    pub answers_before: usize,
    /// In which units loads and forces have to be where a column holds one of its cells.
    pub loads_wanted: &'static str,
    /// The table in place of the other.
    pub verdict_table: Layout<Judgement>,
}

/// Asks the add-in about cells in the order of the schema's.
pub type Ask<Found> = fn(&[Option<f64>]) -> Result<Found, Refusal>;

/// A cell of what is listed.
pub struct Cell {
    /// Its number in a row, by which the add-in names it; none where no row has it.
    pub number: Option<usize>,
    pub words: &'static CellWords,
    pub names: &'static CellNames,
}

/// Every schema that there is.
pub fn all() -> [&'static Schema; 2] {
    [members::schema(), floor_beams::schema()]
}

impl Schema {
    /// The cell at a place, from 1.
    pub fn cell(&self, place: usize) -> &Cell {
        &self.cells[place - 1]
    }

    /// Whether a row asks for what is on request by filling the cell at this place.
    pub fn is_on_request(&self, place: usize) -> bool {
        place > self.cells_without_request()
    }

    /// How many cells there are without those of what is on request.
    pub fn cells_without_request(&self) -> usize {
        let on_request = self.on_request.as_ref();
        on_request.map_or(self.cells.len(), |on_request| on_request.cells_before)
    }

    /// How many answers there are without those of what is on request.
    pub fn answers_without_request(&self) -> usize {
        let on_request = self.on_request.as_ref();
        on_request.map_or(self.answers.len(), |on_request| on_request.answers_before)
    }

    /// The place, from 1, and the cell that has this number in a row.
    pub fn numbered(&self, number: usize) -> Option<(usize, &Cell)> {
        (1..)
            .zip(&self.cells)
            .find(|(_, cell)| cell.number == Some(number))
    }

    /// What a heading with this key names.
    pub fn heading(&self, key: &str) -> Option<Heading> {
        let by_key = self.by_key.get_or_init(|| {
            let names = headings::known_in(self);
            names
                .map(|(heading, name)| (headings::key(&name), heading))
                .collect()
        });
        by_key.get(key).copied()
    }
}

impl Cell {
    /// The cell with this number in a row.
    pub fn of_row(number: usize) -> Cell {
        let names: &'static [CellNames] = &heading_names::CELLS;
        Cell {
            number: Some(number),
            words: words::cell_words(number).expect("a row has it"),
            names: &names[number - 1],
        }
    }

    /// Its number in a row, or a dash.
    pub fn label(&self) -> String {
        self.number
            .map_or("–".to_owned(), |number| number.to_string())
    }

    /// Its number in a row, if it has one, and its name.
    pub fn named(&self) -> String {
        match self.number {
            Some(number) => format!("{number} {}", self.words.name),
            None => self.words.name.to_owned(),
        }
    }

    /// In which unit it has to be.
    pub fn unit_wanted(&self) -> String {
        match self.words.unit {
            "" => format!("{} has no unit", self.words.name),
            unit => format!("{} has to be in {unit}", self.words.name),
        }
    }
}

impl fmt::Debug for Schema {
    fn fmt(&self, formatter: &mut fmt::Formatter) -> fmt::Result {
        formatter.write_str(self.one)
    }
}
