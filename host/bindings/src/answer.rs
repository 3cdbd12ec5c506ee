//! What the add-in answers.

/// The verdict on a row that is not refused.
#[derive(Clone, Copy, Debug, PartialEq, Eq)]
pub struct Verdict {
    pub passes: bool,
    /// The number of the check that governs, 1 to 11.
    pub check: u32,
    /// In millionths, at most 9,999,999; 0 where a yes-or-no check fails.
    pub utilisation: u32,
    /// The dowels of the joint, 0 without one.
    pub count: u32,
}

/// Why a row, a floor beam, a sag check or a buffer is refused.
#[derive(Clone, Copy, Debug, PartialEq, Eq, PartialOrd, Ord, Hash)]
pub struct Refusal {
    /// 1 to 10.
    pub number: u32,
    /// The cell that is named, from 1, or 0 where none is.
    pub cell: u32,
}

impl Refusal {
    /// The number that a C entry returns for this refusal.
    pub fn code(self) -> u64 {
        1000 * u64::from(self.number) + u64::from(self.cell)
    }

    /// The refusal that a C entry's returned number stands for; none below 1000.
    pub fn from_code(code: u64) -> Option<Refusal> {
        if code < 1000 {
            return None;
        }
        Some(Refusal {
            number: (code / 1000) as u32,
            cell: (code % 1000) as u32,
        })
    }
}
