//! How the rows of a sheet came out.
use crate::row::Outcome;

#[derive(Clone, Copy, Debug, Default, PartialEq, Eq)]
pub struct Tally {
    pub rows: u64,
    pub passed: u64,
    pub failed: u64,
    pub with_strengths: u64,
    pub packed: u64,
    pub refused: u64,
}

impl Tally {
    pub fn count(&mut self, outcome: Outcome) {
        self.rows += 1;
        let counted = match outcome {
            Outcome::Passed => &mut self.passed,
            Outcome::Failed => &mut self.failed,
            Outcome::WithStrengths => &mut self.with_strengths,
            Outcome::Packed => &mut self.packed,
            Outcome::Refused => &mut self.refused,
        };
        *counted += 1;
    }

    /// Whether no row fails or is refused.
    pub fn is_clean(&self) -> bool {
        self.failed + self.refused == 0
    }

    /// The count of a sheet that is judged.
    pub fn judged(&self) -> String {
        format!(
            "{}: {} passed, {} failed, {} refused",
            self.rows(),
            self.passed,
            self.failed,
            self.refused
        )
    }

    /// The count of a sheet whose strengths are listed.
    pub fn with_strengths(&self) -> String {
        format!(
            "{}: {} with strengths, {} refused",
            self.rows(),
            self.with_strengths,
            self.refused
        )
    }

    /// The count of a sheet that is packed.
    pub fn packed(&self) -> String {
        format!(
            "{}: {} packed, {} refused",
            self.rows(),
            self.packed,
            self.refused
        )
    }

    fn rows(&self) -> String {
        let plural = if self.rows == 1 { "" } else { "s" };
        format!("{} row{plural}", self.rows)
    }
}
