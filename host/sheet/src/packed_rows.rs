//! The rows of members packed, one after another, as the program `schedule` and other hosts read them.
use crate::judgement::Refused;
use crate::row::{Outcome, SheetRow};
use crate::text::shown;
use crate::{notes, reasons, Report};
use lvl_addin::entry;
use lvl_addin::row::CELLS;

/// How much of a member's name is shown.
const NAME: usize = 40;

#[derive(Default)]
pub struct PackedRows {
    output: Vec<u8>,
    rows: u64,
}

impl Report for PackedRows {
    /// A row that cannot be packed becomes a blank one, so that every row keeps its number, and is said to.
    fn row(&mut self, row: &SheetRow) -> Outcome {
        self.rows += 1;
        match row.packed() {
            Ok(bytes) => {
                self.output.extend(bytes);
                Outcome::Packed
            }
            Err(refused) => {
                let blank = entry::pack(&[None; CELLS]);
                self.output.extend(blank.expect("a blank row is packed"));
                notes::show(&[self.packed_blank(refused, row)]);
                Outcome::Refused
            }
        }
    }

    fn finish(self) -> Vec<u8> {
        self.output
    }
}

impl PackedRows {
    fn packed_blank(&self, refused: Refused, row: &SheetRow) -> String {
        let name = shown(&row.name(), NAME);
        let reason = reasons::reason(refused, row);
        format!(
            "row {}, line {}, \"{name}\", is packed as a blank row: {reason}",
            self.rows, row.line
        )
    }
}
