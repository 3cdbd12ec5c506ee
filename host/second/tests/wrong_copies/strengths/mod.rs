//! Wrong copies of design strengths with remainders: of their own rules, and of those that they share with the check.

mod answering;
mod numbers;
mod rows;
mod shared;

use crate::evidence::Wrong;
use crate::families;

/// Of the rules that only this request has.
pub fn own_copies() -> Vec<Wrong> {
    let mut copies = numbers::copies();
    copies.extend(rows::copies());
    copies.extend(answering::copies());
    copies.extend(families::of_stresses());
    copies
}

/// Of document 01's rules, which these answers have to show by themselves.
pub fn shared_copies() -> Vec<Wrong> {
    shared::copies()
}
