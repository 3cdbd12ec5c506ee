//! How often each sort of call, verdict and refusal has occurred, and what is demanded of each.
use crate::counts::assert_occurred;
use crate::row_refusals::of_checking;
use crate::seen::Seen;
use crate::sorts::Sort;
use lvl_addin::answer::Refusal;
use lvl_second::kept::FIRST_NUMBER;
use lvl_second::{Answered, Call, Given, Governing, Paper, Rules};
use std::collections::BTreeMap;

/// The least number of answers of each class, and of each refusal.
const LEAST_IN_CLASS: u64 = 1000;
const LEAST_OF_REFUSAL: u64 = 10;

/// The governing check, and whether its row passes.
type Class = (u32, bool);

/// All that can occur: yes-or-no checks are named only where they fail.
fn every_class() -> Vec<Class> {
    let fails = (1..=11).map(|check| (check, false));
    fails.chain((5..=11).map(|check| (check, true))).collect()
}

/// All that can occur: those of a row that name a cell, and the two of the schedule.
fn every_refusal() -> Vec<Refusal> {
    let of_rows = of_checking().into_iter().filter(|refusal| refusal.cell > 0);
    let of_schedules = [11, 12].map(|number| Refusal { number, cell: 0 });
    of_rows.chain(of_schedules).collect()
}

/// What has been seen.
pub struct Tally {
    calls: u64,
    sorts: Vec<(Sort, u64)>,
    classes: BTreeMap<Class, u64>,
    refusals: BTreeMap<Refusal, u64>,
    /// The rows that the present run holds, by its answers, and what governs them.
    held: Vec<Governing>,
    next: u32,
    governed: Option<Governing>,
}

impl Tally {
    pub fn new(sorts: Vec<Sort>) -> Tally {
        Tally {
            calls: 0,
            sorts: sorts.into_iter().map(|sort| (sort, 0)).collect(),
            classes: BTreeMap::new(),
            refusals: BTreeMap::new(),
            held: Vec::new(),
            next: FIRST_NUMBER,
            governed: None,
        }
    }

    /// How many calls have been counted.
    pub fn calls(&self) -> u64 {
        self.calls
    }

    /// Begins another run.
    pub fn begin(&mut self) {
        self.held.clear();
        self.next = FIRST_NUMBER;
        self.governed = None;
    }

    pub fn count(&mut self, call: &Call, answered: &Answered) {
        let before = self.held.clone();
        let next = self.next;
        self.follow(call, answered);
        let seen = Seen {
            call,
            answered,
            next,
            before: &before,
            after: &self.held,
            governed: self.governed,
        };
        self.calls += 1;
        for (sort, count) in &mut self.sorts {
            *count += u64::from((sort.is)(&seen));
        }
        if let Some(Governing { verdict, .. }) = answered.governing {
            *self
                .classes
                .entry((verdict.check, verdict.passes))
                .or_default() += 1;
        }
        if let Err(refusal) = answered.given {
            *self.refusals.entry(refusal).or_default() += 1;
        }
        self.governed = answered.governing;
    }

    /// Takes a row in or out as the answer says.
    fn follow(&mut self, call: &Call, answered: &Answered) {
        match (call, answered.given) {
            (Call::Add(row), Ok(Given::Added(number))) => {
                let cells = Paper::read_row(row).expect("an added row reads");
                let verdict = Paper::check_row(&cells).expect("an added row is judged");
                self.held.push(Governing { number, verdict });
                self.next = number + 1;
            }
            (Call::Remove(number), Ok(_)) => self.held.retain(|row| row.number != *number),
            _ => {}
        }
    }

    pub fn print(&self) {
        println!("\ngoverning check  verdict   calls");
        for (&(check, passes), calls) in &self.classes {
            let verdict = if passes { "pass" } else { "fail" };
            println!("{check:>15}  {verdict:>7}  {calls:>6}");
        }
        println!("\nsort: calls");
        for (sort, calls) in &self.sorts {
            println!("{}: {calls}", sort.name);
        }
        println!("\nrefusal  cell: calls");
        let mut line = None;
        for (refusal, calls) in &self.refusals {
            if line != Some(refusal.number) {
                line = Some(refusal.number);
                print!("\n{}  ", refusal.number);
            }
            print!("{}: {calls}  ", refusal.cell);
        }
        println!("\n");
    }

    /// Holds the classes and refusals that have occurred to those that can.
    pub fn assert_every_class(&self) {
        assert_occurred(
            "calls in class",
            &self.classes,
            &every_class(),
            LEAST_IN_CLASS,
        );
        assert_occurred(
            "calls with",
            &self.refusals,
            &every_refusal(),
            LEAST_OF_REFUSAL,
        );
    }

    /// Holds every sort to have occurred often enough.
    pub fn assert_every_sort(&self) {
        for (sort, calls) in &self.sorts {
            let Sort { name, least, .. } = sort;
            assert!(calls >= least, "only {calls} calls of the sort '{name}'");
        }
    }
}
