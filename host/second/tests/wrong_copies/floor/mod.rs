//! Wrong copies of the floor beam: of its own rules, and of those that it shares with the row.

mod host;
mod loads;
mod order;
mod row;
mod shared;

use crate::evidence::Wrong;

pub fn copies() -> Vec<Wrong> {
    let mut copies = loads::copies();
    copies.extend(row::copies());
    copies.extend(order::copies());
    copies.extend(host::copies());
    copies.extend(shared::copies());
    copies
}
