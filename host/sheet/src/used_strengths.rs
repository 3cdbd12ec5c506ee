//! The design strengths that the checks of a row use.
use crate::cell_numbers::{KIND, REGIME};
use lvl_addin::answer::Refusal;
use lvl_addin::entry;
use lvl_addin::row::HostRow;
use lvl_addin::strengths::Strength;

/// Each is there where a check of the row's kind uses it, whether the row passes or fails.
#[derive(Clone, Copy, Debug, PartialEq, Eq)]
pub struct UsedStrengths {
    /// The code of the load duration regime for which they are.
    pub regime: u64,
    pub bending: Option<Strength>,
    pub compression: Option<Strength>,
    pub tension: Option<Strength>,
    pub shear: Option<Strength>,
}

impl UsedStrengths {
    /// Those of a row of cells, or why it is refused.
    pub fn of_row(row: &HostRow) -> Result<UsedStrengths, Refusal> {
        let all = entry::strengths(row)?;
        let kind = code(row, KIND);
        let used_by = |kinds: &[u64], strength: Strength| kinds.contains(&kind).then_some(strength);
        Ok(UsedStrengths {
            regime: code(row, REGIME),
            // Check 7 of kind 2, check 11 of both others.
            bending: used_by(&[2, 4, 5], all.bending),
            // Checks 9 and 10 of both, check 11 of kind 4.
            compression: used_by(&[3, 4], all.compression),
            // Checks 5 and 6 of kind 1, check 11 of kind 5.
            tension: used_by(&[1, 5], all.tension),
            // Check 8.
            shear: used_by(&[2, 4, 5], all.shear),
        })
    }
}

/// A code of a row that is not refused: it is filled, and a whole number.
fn code(row: &HostRow, number: usize) -> u64 {
    row[number - 1].map_or(0, |cell| cell as u64)
}
