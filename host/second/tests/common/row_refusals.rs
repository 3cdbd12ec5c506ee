//! Every refusal of the host's row that can occur.
use lvl_addin::answer::Refusal;
use lvl_addin::row::CELLS;

/// The cells that have a range. Those of least value 0 (4, 10 and 21) can only be too great.
#[rustfmt::skip]
const RANGED: [u32; 18] = [4, 5, 6, 7, 8, 9, 10, 11, 12, 14, 15, 16, 17, 18, 19, 20, 21, 22];

/// The numbers of all cells.
pub fn every_cell() -> impl Iterator<Item = u32> {
    1..=CELLS as u32
}

/// One refusal by the cells that it can name.
pub fn refusals(
    number: u32,
    cells: impl IntoIterator<Item = u32>,
) -> impl Iterator<Item = Refusal> {
    cells.into_iter().map(move |cell| Refusal { number, cell })
}

/// What every entry refuses: rows that do not read, and the length of what is lent.
pub fn of_reading_and_answering() -> Vec<Refusal> {
    let mut list = Vec::new();
    list.extend(refusals(1, [0]));
    list.extend(refusals(1, every_cell()));
    list.extend(refusals(5, [0]));
    list
}

/// What an entry refuses that judges rows.
pub fn of_checking() -> Vec<Refusal> {
    let mut list = of_reading_and_answering();
    list.extend(refusals(2, every_cell()));
    list.extend(refusals(3, [1, 2, 3, 13]));
    list.extend(refusals(4, RANGED));
    list
}
