//! The rows that one list adds again and again.
use super::stock::{Sort, Stock};
use crate::rows::random::Random;
use crate::Cells;

type IsWanted = fn(&Sort) -> bool;

/// Which rows a list adds as a rule, and which now and then. A yes-or-no fail governs for as long as it is held: most lists
/// have few or none.
const FLAVOURS: [(IsWanted, IsWanted); 8] = [
    (|sort| sort.passes, |sort| sort.passes),
    (|sort| sort.passes, |_| true),
    (|sort| !sort.yes_or_no, |sort| sort.is_at_cap()),
    (|sort| !sort.yes_or_no, |sort| sort.yes_or_no),
    (|sort| sort.is_at_cap(), |sort| sort.yes_or_no),
    (|sort| sort.is_at_cap(), |_| true),
    (|sort| sort.yes_or_no, |_| true),
    (|_| true, |_| true),
];

/// The rows: so few that many of those held are equal.
pub struct Palette {
    common: Vec<Cells>,
    rare: Vec<Cells>,
}

impl Palette {
    pub fn new(random: &mut Random, stock: &Stock) -> Palette {
        let (common, rare) = random.pick(&FLAVOURS);
        let mut rows = |most: u64, is_wanted: IsWanted| {
            let count = random.between(1, most);
            (0..count).map(|_| stock.row(random, is_wanted)).collect()
        };
        Palette {
            common: rows(12, common),
            rare: rows(4, rare),
        }
    }

    pub fn row(&self, random: &mut Random) -> Cells {
        if random.one_in(16) {
            random.pick(&self.rare)
        } else {
            random.pick(&self.common)
        }
    }
}
