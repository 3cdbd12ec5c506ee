//! Unfactored moments that the moment M of the design loads makes doubtful: in another unit than N·mm, as it seems.
use crate::floor_beams::{strength, UNFACTORED_MOMENT};
use crate::judgement::Judged;
use crate::row::SheetRow;
use crate::text::shown;

/// Of design loads M is less than so many times that of unfactored ones.
const GREATEST_RATIO: u64 = 10;

/// How much of a beam's name is shown.
const NAME: usize = 40;

/// What is doubtful about Mn.
#[derive(Clone, Copy, Debug, PartialEq, Eq)]
pub enum Doubt {
    Above,
    BelowTenth,
}

/// What is doubtful about a beam's Mn, where it is a whole number and M is found.
pub fn of_row(row: &SheetRow, judged: &Judged) -> Option<Doubt> {
    let moment = strength(judged)?.moment;
    let unfactored = row.cell(UNFACTORED_MOMENT).whole()?;
    if unfactored > moment {
        Some(Doubt::Above)
    } else if unfactored.saturating_mul(GREATEST_RATIO) < moment {
        Some(Doubt::BelowTenth)
    } else {
        None
    }
}

/// The beams of a sheet with one doubt: the first of them, and how many there are.
#[derive(Default)]
struct Beams {
    first: Option<String>,
    count: u64,
}

/// The doubts about a sheet's beams.
#[derive(Default)]
pub struct MomentDoubts {
    above: Beams,
    below_tenth: Beams,
}

impl MomentDoubts {
    pub fn add(&mut self, row: &SheetRow, doubt: Option<Doubt>) {
        let beams = match doubt {
            Some(Doubt::Above) => &mut self.above,
            Some(Doubt::BelowTenth) => &mut self.below_tenth,
            None => return,
        };
        beams.first.get_or_insert_with(|| place(row));
        beams.count += 1;
    }

    /// A note for each doubt that there is, with the count of its beams.
    pub fn notes(&self) -> Vec<String> {
        let above = "Mn is above M: is it in N·mm, and of unfactored loads?";
        let below_tenth = "Mn is below a tenth of M: is it in N·mm?";
        let notes = [self.above.note(above), self.below_tenth.note(below_tenth)];
        notes.into_iter().flatten().collect()
    }
}

impl Beams {
    fn note(&self, doubt: &str) -> Option<String> {
        let first = self.first.as_ref()?;
        let others = match self.count - 1 {
            0 => String::new(),
            1 => ", and 1 beam more".to_owned(),
            more => format!(", and {more} beams more"),
        };
        Some(format!("{first}{others}: {doubt}"))
    }
}

fn place(row: &SheetRow) -> String {
    let (line, name) = (format!("line {}", row.line), row.name());
    // A beam without a name is called by its line.
    match name == line {
        true => line,
        false => format!("{line}, \"{}\"", shown(&name, NAME)),
    }
}
