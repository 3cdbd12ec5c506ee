//! The generated rows.
use crate::both::both;
use crate::counts::{
    assert_lengths, assert_lent_lengths, assert_occurred, count_answer, AnswerLengths,
};
use crate::exact::{assert_exact, given, Material};
use crate::row_refusals::of_checking;
use crate::spread::Spread;
use lvl_addin::answer::Refusal;
use lvl_addin::entry;
use lvl_addin::row::ANSWER_BYTES;
use lvl_addin::strengths::STRENGTHS_BYTES;
use lvl_second::cells::{cell, FIRST_OF_JOINT, KIND};
use lvl_second::rows::{strength_answers, Cases, LONGEST_ROW};
use lvl_second::{Paper, Rules};
use std::collections::BTreeMap;

/// The rows that are compared.
const ROWS: usize = 2_000_000;

/// The least number of rows in a class, of unrounded strengths of a sort, of each refusal, and of rows and answers of
/// each length.
const LEAST_IN_CLASS: u64 = 10_000;
const LEAST_OF_SORT: u64 = 10_000;
const LEAST_OF_REFUSAL: u64 = 300;
const LEAST_OF_LENGTH: u64 = 100;

/// A kind, whether it has a joint, and whether the row passes its check.
type Class = (u64, bool, bool);

/// Every class that can occur.
#[rustfmt::skip]
const CLASSES: [Class; 12] = [
    (1, false, false), (1, false, true), (1, true, false), (1, true, true),
    (2, false, false), (2, false, true), (3, false, false), (3, false, true),
    (4, false, false), (4, false, true), (5, false, false), (5, false, true),
];

/// What has been seen.
#[derive(Default)]
struct Tally {
    rows: u64,
    given: u64,
    classes: BTreeMap<Class, u64>,
    refusals: BTreeMap<Refusal, u64>,
    row_lengths: BTreeMap<usize, u64>,
    answer_lengths: AnswerLengths,
    spread: Spread,
}

/// The number that has to be returned for what the check returns for the row.
fn due(checked: u64, answer: usize) -> u64 {
    match Refusal::from_code(checked) {
        Some(refusal) => refusal.code(),
        None if answer != STRENGTHS_BYTES => Refusal { number: 5, cell: 0 }.code(),
        None => 0,
    }
}

fn compare(row: &[u8], answer: usize, tally: &mut Tally) {
    let salt = tally.rows;
    tally.rows += 1;
    *tally.row_lengths.entry(row.len()).or_default() += 1;
    let (code, mut lent) = both(
        entry::strengths_bytes,
        lvl_second::strengths_bytes,
        row,
        answer,
        salt,
    );
    let checked = entry::check_bytes(row, &mut [0; ANSWER_BYTES]);
    assert_eq!(code, due(checked, answer), "row {salt}, checked {checked}");
    let refusal = Refusal::from_code(code);
    count_answer(&mut tally.answer_lengths, answer, refusal);
    match refusal {
        Some(refusal) => *tally.refusals.entry(refusal).or_default() += 1,
        None => tally_given(row, checked == 0, lent.part(), tally),
    }
}

fn tally_given(row: &[u8], passes: bool, answer: &[u8], tally: &mut Tally) {
    tally.given += 1;
    let cells = Paper::read_row(row).expect("a row with strengths reads");
    let class = (
        cell(&cells, KIND).unwrap_or(0),
        cell(&cells, FIRST_OF_JOINT).is_some(),
        passes,
    );
    *tally.classes.entry(class).or_default() += 1;
    let given = given(answer);
    assert_exact(&Material::of(&cells), &given);
    tally.spread.count(&given);
}

fn print(tally: &Tally) {
    println!(
        "{} rows compared, {} of them with strengths, which make up the undivided products; all others refused as by the check",
        tally.rows, tally.given
    );
    println!("\nkind  joint  check     rows");
    for (&(kind, joint, passes), rows) in &tally.classes {
        let joint = if joint { "yes" } else { "no" };
        let check = if passes { "pass" } else { "fail" };
        println!("{kind:>4}  {joint:>5}  {check:>5}  {rows:>7}");
    }
    tally.spread.print();
    println!("\nrefusal, cell: rows");
    for (refusal, rows) in &tally.refusals {
        println!("{}, {}: {rows}", refusal.number, refusal.cell);
    }
}

#[test]
fn the_entry_and_the_second_implementation_agree() {
    let mut tally = Tally::default();
    for (case, answer) in Cases::new().zip(strength_answers::lengths()).take(ROWS) {
        compare(case.row(), answer, &mut tally);
    }
    print(&tally);
    assert_occurred("rows in class", &tally.classes, &CLASSES, LEAST_IN_CLASS);
    assert_occurred(
        "rows with",
        &tally.refusals,
        &of_checking(),
        LEAST_OF_REFUSAL,
    );
    tally.spread.assert_every_sort(LEAST_OF_SORT);
    assert_lengths("rows", LONGEST_ROW, LEAST_OF_LENGTH, |length| {
        tally.row_lengths.get(&length).copied()
    });
    assert_lent_lengths(
        "answers",
        &tally.answer_lengths,
        strength_answers::LONGEST,
        LEAST_OF_LENGTH,
    );
}
