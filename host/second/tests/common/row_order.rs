//! Which refusal a fault of a good row gives, and which of several is told.
use lvl_addin::answer::Refusal;
use lvl_second::cells::*;
use lvl_second::rows::faults::{Fault, Placed};

/// The refusal of one fault of a good row. In a cell that has to be blank any number is one too many.
fn refusal(cells: &Cells, (place, fault): Placed) -> Refusal {
    let cell = place + 1;
    let number = match (fault, cell) {
        (Fault::Unreadable, _) => 1,
        (Fault::Blank, _) => 2,
        (Fault::Outside, _) if cells[place].is_none() => 2,
        (Fault::Outside, KIND | GRADE | REGIME | TABLE_16_ROW) => 3,
        (Fault::Outside, _) => 4,
    };
    Refusal {
        number,
        cell: cell as u32,
    }
}

/// Where a refusal stands in the order: what does not read, then the kind, without which nothing is known of the other
/// cells, then by number, and of one number the lowest cell.
fn order(refusal: &Refusal) -> (bool, bool, u32, u32) {
    let after_reading = refusal.number > 1;
    let after_the_kind = after_reading && refusal.cell > KIND as u32;
    (after_reading, after_the_kind, refusal.number, refusal.cell)
}

/// What is told of these faults of a good row.
pub fn first_told(cells: &Cells, faults: &[Placed]) -> Option<Refusal> {
    let refusals = faults.iter().map(|&fault| refusal(cells, fault));
    refusals.min_by_key(order)
}
