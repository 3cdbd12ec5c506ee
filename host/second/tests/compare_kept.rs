//! The program `replay` against the second implementation's kept schedule, call by call, and its stored input and output.
//!
//! Every line must be equal, and every sort of call and answer must have occurred often enough to mean something.
#[path = "compare_kept/broken.rs"]
mod broken;
#[allow(dead_code)]
#[path = "common/counts.rs"]
mod counts;
#[path = "compare_kept/program.rs"]
mod program;
#[path = "common/programs.rs"]
mod programs;
#[path = "common/row_refusals.rs"]
mod row_refusals;
#[path = "compare_kept/seen.rs"]
mod seen;
#[path = "compare_kept/sorts.rs"]
mod sorts;
#[path = "compare_kept/stored.rs"]
mod stored;
#[path = "compare_kept/tally.rs"]
mod tally;

use lvl_second::calls::spending::Spending;
use lvl_second::calls::{Lists, CALLS_OF_LIST};
use lvl_second::{Call, Kept, KeptRules, Paper};
use std::time::Instant;
use tally::Tally;

/// The lists that are compared; 200,000 calls are demanded.
const LISTS: usize = 240;

/// The second implementation beside a run of the program.
struct Comparison<'a, C> {
    calls: C,
    kept: Kept,
    tally: &'a mut Tally,
    lines: u64,
    difference: Option<String>,
}

impl<C: Iterator<Item = Call>> Comparison<'_, C> {
    /// Holds the next line to the second implementation's. After a difference, lines are only read.
    fn take(&mut self, line: &[u8]) {
        if self.difference.is_some() {
            return;
        }
        self.lines += 1;
        let Some(call) = self.calls.next() else {
            self.difference = Some("a line without a call".to_owned());
            return;
        };
        let answered = Paper::answer_call(&mut self.kept, &call);
        let expected = Paper::answer_line(&answered);
        if line != expected.as_bytes() {
            let printed = String::from_utf8_lossy(line);
            self.difference = Some(format!("{call:?}: {printed:?} and not {expected:?}"));
        }
        self.tally.count(&call, &answered);
    }
}

/// Compares one run. The calls are given twice, once to be written and once to be followed.
fn compare<C: Iterator<Item = Call> + Send>(name: &str, calls: impl Fn() -> C, tally: &mut Tally) {
    tally.begin();
    let mut comparison = Comparison {
        calls: calls(),
        kept: Paper::empty_schedule(),
        tally,
        lines: 0,
        difference: None,
    };
    program::run(calls(), |line| comparison.take(line));
    let lines = comparison.lines;
    if let Some(difference) = comparison.difference {
        panic!("{name}, line {lines}: {difference}");
    }
    assert!(
        comparison.calls.next().is_none(),
        "{name} has no more than {lines} lines"
    );
}

#[test]
fn the_program_and_the_second_implementation_agree() {
    let started = Instant::now();
    let mut tally = Tally::new(sorts::of_lists());
    for (list, calls) in (1..).zip(Lists::new().take(LISTS)) {
        let name = format!("list {list}");
        compare(&name, || calls.iter().copied(), &mut tally);
    }
    println!(
        "{} calls in {LISTS} lists compared in {:?}",
        tally.calls(),
        started.elapsed()
    );
    tally.print();
    assert_eq!(tally.calls(), (LISTS * CALLS_OF_LIST) as u64);
    assert!(tally.calls() >= 200_000);
    tally.assert_every_class();
    tally.assert_every_sort();
}

#[test]
fn they_agree_until_the_numbers_are_spent_and_after() {
    let started = Instant::now();
    let mut tally = Tally::new(sorts::of_spending());
    compare("the list that spends", Spending::new, &mut tally);
    println!(
        "{} calls that spend the numbers compared in {:?}",
        tally.calls(),
        started.elapsed()
    );
    tally.print();
    tally.assert_every_sort();
}
