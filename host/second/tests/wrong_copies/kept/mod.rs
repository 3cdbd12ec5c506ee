//! Wrong copies of the kept schedule.
//!
//! Left out, since they are the same rule: rows held in another order, for the number decides among equals; every pass
//! ranked below every fail by utilisation, which is above one; a yes-or-no fail known by its check alone, or by its
//! utilisation 0, which no other verdict has, every kind having a force of 1 and more; and its rank as a utilisation above
//! the cap.

mod adding;
mod governing;
mod lines;
mod numbers;
mod ranking;
mod removing;
mod spending;

use crate::evidence::Wrong;
use crate::families;

pub fn copies() -> Vec<Wrong> {
    let mut copies = numbers::copies();
    for more in [
        adding::copies(),
        removing::copies(),
        ranking::copies(),
        governing::copies(),
        lines::copies(),
        spending::copies(),
        families::of_schedules(),
    ] {
        copies.extend(more);
    }
    copies
}
