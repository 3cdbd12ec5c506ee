//! Calls of a kept schedule to compare implementations on: always the same lists, each for a schedule of its own, and one
//! list that spends the numbers.

mod drawing;
mod palette;
pub mod spending;
mod stock;
pub mod stored;

use crate::rows::random::Random;
use crate::Call;
use drawing::Drawing;
use palette::Palette;
use stock::Stock;

/// How many calls a list has: so many that numbers go beyond eight bits.
pub const CALLS_OF_LIST: usize = 1000;

/// The sequence of lists.
pub struct Lists {
    random: Random,
    stock: Stock,
}

impl Lists {
    /// The one sequence that every test reads, from its beginning.
    pub fn new() -> Lists {
        let mut random = Random::new(0x4B45_5054_4B45_5054);
        let stock = Stock::new(&mut random);
        Lists { random, stock }
    }
}

impl Default for Lists {
    fn default() -> Lists {
        Lists::new()
    }
}

impl Iterator for Lists {
    type Item = Vec<Call>;

    fn next(&mut self) -> Option<Vec<Call>> {
        let palette = Palette::new(&mut self.random, &self.stock);
        Some(Drawing::new(&mut self.random, palette).list(CALLS_OF_LIST))
    }
}
