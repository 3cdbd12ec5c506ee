//! A call with its answer, and what was held before and after it.
use lvl_second::kept::{CAPACITY, LAST_NUMBER};
use lvl_second::{Answered, Call, Given, Governing, KeptRules, Paper, Rank};

pub struct Seen<'a> {
    pub call: &'a Call,
    pub answered: &'a Answered,
    /// The number of the next add before the call.
    pub next: u32,
    /// The rows that were held before the call and after it, with their verdicts.
    pub before: &'a [Governing],
    pub after: &'a [Governing],
    /// What governed before the call.
    pub governed: Option<Governing>,
}

impl Seen<'_> {
    pub fn adds(&self) -> bool {
        matches!(self.call, Call::Add(_))
    }

    pub fn is_refused(&self) -> bool {
        self.answered.given.is_err()
    }

    pub fn is_refused_by(&self, number: u32) -> bool {
        self.answered
            .given
            .is_err_and(|refusal| refusal.number == number)
    }

    /// Refused for the row's own sake.
    pub fn row_is_refused(&self) -> bool {
        (1..=4).any(|number| self.is_refused_by(number))
    }

    pub fn added(&self) -> Option<u32> {
        match self.answered.given {
            Ok(Given::Added(number)) => Some(number),
            _ => None,
        }
    }

    /// The number that a removal took out.
    pub fn removed(&self) -> Option<u32> {
        match (self.call, self.answered.given) {
            (Call::Remove(number), Ok(Given::Removed)) => Some(*number),
            _ => None,
        }
    }

    /// The number that a removal asked for and that was not held.
    pub fn missed(&self) -> Option<u32> {
        match self.call {
            Call::Remove(number) if self.is_refused() => Some(*number),
            _ => None,
        }
    }

    /// Whether a number was not held that would be one held if it had so many bits alone.
    pub fn missed_above(&self, bits: u32) -> bool {
        self.missed().is_some_and(|number| {
            let low = number % (1 << bits);
            self.before.iter().any(|held| held.number == low)
        })
    }

    pub fn was_full(&self) -> bool {
        self.before.len() == CAPACITY
    }

    pub fn numbers_were_spent(&self) -> bool {
        self.next > LAST_NUMBER
    }

    pub fn removed_the_governing(&self) -> bool {
        self.removed().is_some() && self.removed() == self.governed.map(|row| row.number)
    }

    pub fn governing(&self) -> Option<Governing> {
        self.answered.governing
    }

    /// The rank of the row that governs.
    pub fn rank(&self) -> Option<Rank> {
        self.governing().map(|row| Paper::rank(&row.verdict))
    }

    pub fn governs_yes_or_no(&self) -> bool {
        self.rank() == Some(Rank::YesOrNoFails)
    }

    pub fn governs_by_utilisation(&self) -> bool {
        matches!(self.rank(), Some(Rank::Uses(_)))
    }

    /// The rows beside the one that governs.
    pub fn others(&self) -> impl Iterator<Item = &Governing> {
        let number = self.governing().map(|row| row.number);
        self.after
            .iter()
            .filter(move |row| Some(row.number) != number)
    }

    /// Whether another row has the rank of the one that governs, and this is so of its verdict.
    pub fn ties_with(&self, is: impl Fn(&Governing, &Governing) -> bool) -> bool {
        self.governing().is_some_and(|governing| {
            self.others()
                .any(|row| Some(Paper::rank(&row.verdict)) == self.rank() && is(&governing, row))
        })
    }

    pub fn ties(&self) -> bool {
        self.ties_with(|_, _| true)
    }

    /// Whether a row with a lower number than the one that governs is held, of which this is so.
    pub fn passes_over(&self, is: impl Fn(&Governing) -> bool) -> bool {
        self.governing().is_some_and(|governing| {
            self.others()
                .any(|row| row.number < governing.number && is(row))
        })
    }

    /// By how much the row that governs is used more than some other.
    pub fn is_ahead_by(&self, millionths: u32) -> bool {
        let Some(Rank::Uses(utilisation)) = self.rank() else {
            return false;
        };
        self.others()
            .any(|row| row.verdict.utilisation + millionths == utilisation)
    }

    /// Whether a row that a call added governs now, where another did.
    pub fn takes_over(&self) -> bool {
        self.governed.is_some()
            && self.added().is_some()
            && self.added() == self.governing().map(|row| row.number)
    }

    /// Whether a row that a call added ranks with the one that governs and yet does not.
    pub fn does_not_take_over(&self) -> bool {
        self.ties_with(|_, row| Some(row.number) == self.added())
    }
}
