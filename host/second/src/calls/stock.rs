//! Rows that are judged, by the sorts of their verdicts.
use crate::rows::judged;
use crate::rows::random::Random;
use crate::{Cells, KeptRules, Paper, Rules};
use lvl_addin::answer::Verdict;
use std::collections::BTreeMap;

/// How many rows are drawn, and how many of a sort are kept at most.
const DRAWN: usize = 30_000;
const MOST_OF_SORT: usize = 40;

/// What a row's verdict is, as far as rank goes: yes-or-no fails and capped utilisations are equal among themselves.
#[derive(Clone, Copy, PartialEq, Eq, PartialOrd, Ord)]
pub struct Sort {
    pub check: u32,
    pub passes: bool,
    pub yes_or_no: bool,
    /// The utilisation, if it is at the cap or one below.
    at_cap: Option<u32>,
}

impl Sort {
    fn of(verdict: &Verdict) -> Sort {
        Sort {
            check: verdict.check,
            passes: verdict.passes,
            yes_or_no: Paper::fails_yes_or_no(verdict),
            at_cap: Some(verdict.utilisation).filter(|&used| used >= 9_999_998),
        }
    }

    /// Whether the utilisation is at the cap or one below.
    pub fn is_at_cap(&self) -> bool {
        self.at_cap.is_some()
    }
}

/// The rows.
pub struct Stock(BTreeMap<Sort, Vec<Cells>>);

impl Stock {
    pub fn new(random: &mut Random) -> Stock {
        let mut rows: BTreeMap<Sort, Vec<Cells>> = BTreeMap::new();
        for _ in 0..DRAWN {
            let cells = judged::any_row(random);
            if let Ok(verdict) = Paper::check_row(&cells) {
                let of_sort = rows.entry(Sort::of(&verdict)).or_default();
                if of_sort.len() < MOST_OF_SORT {
                    of_sort.push(cells);
                }
            }
        }
        Stock(rows)
    }

    /// A row of one of these sorts, each sort as often as another.
    pub fn row(&self, random: &mut Random, is_wanted: impl Fn(&Sort) -> bool) -> Cells {
        let sorts = self.0.iter().filter(|(sort, _)| is_wanted(sort));
        let lists: Vec<&[Cells]> = sorts.map(|(_, rows)| &rows[..]).collect();
        let list = random.pick(&lists);
        random.pick(list)
    }
}
