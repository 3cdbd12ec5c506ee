//! Where strengths and remainders lie, stress by stress.
use crate::counts::assert_occurred;
use crate::exact::{Given, DIVISOR};
use std::cmp::Ordering;
use std::collections::BTreeMap;

const STRESSES: [&str; 4] = ["bending", "compression", "tension", "shear"];

/// How an unrounded strength lies between two whole ones.
#[derive(Clone, Copy, Debug, PartialEq, Eq, PartialOrd, Ord)]
enum Between {
    Whole,
    BelowHalf,
    Half,
    AboveHalf,
}

const BETWEEN: [Between; 4] = [
    Between::Whole,
    Between::BelowHalf,
    Between::Half,
    Between::AboveHalf,
];

impl Between {
    fn of(remainder: u64) -> Between {
        match (2 * u128::from(remainder)).cmp(&DIVISOR) {
            _ if remainder == 0 => Between::Whole,
            Ordering::Less => Between::BelowHalf,
            Ordering::Equal => Between::Half,
            Ordering::Greater => Between::AboveHalf,
        }
    }
}

/// The least and the greatest number seen.
struct Ends(u64, u64);

impl Default for Ends {
    fn default() -> Ends {
        Ends(u64::MAX, 0)
    }
}

impl Ends {
    fn widen(&mut self, number: u64) {
        *self = Ends(self.0.min(number), self.1.max(number));
    }
}

/// What has been seen of one stress.
#[derive(Default)]
struct OfStress {
    strengths: Ends,
    remainders: Ends,
    between: BTreeMap<Between, u64>,
}

impl OfStress {
    fn often(&self, sort: Between) -> u64 {
        self.between.get(&sort).copied().unwrap_or(0)
    }
}

/// What has been seen.
#[derive(Default)]
pub struct Spread([OfStress; 4]);

impl Spread {
    pub fn count(&mut self, given: &Given) {
        for (seen, &[strength, remainder]) in self.0.iter_mut().zip(given) {
            seen.strengths.widen(strength);
            seen.remainders.widen(remainder);
            *seen.between.entry(Between::of(remainder)).or_default() += 1;
        }
    }

    pub fn print(&self) {
        println!("\nstress: strengths; remainders");
        for (name, seen) in STRESSES.iter().zip(&self.0) {
            let (Ends(low, high), Ends(least, greatest)) = (&seen.strengths, &seen.remainders);
            let [whole, below, half, above] = BETWEEN.map(|sort| seen.often(sort));
            println!(
                "{name}: {low} to {high}; {least} to {greatest}, {whole} of them 0, {below} below a half, {half} just a half, {above} above"
            );
        }
    }

    /// Holds every stress to have been seen so often whole, and at, below and above a half.
    pub fn assert_every_sort(&self, least: u64) {
        for (name, seen) in STRESSES.iter().zip(&self.0) {
            assert_occurred(name, &seen.between, &BETWEEN, least);
        }
    }
}
