//! The add-in's entry for sags against the second implementation, on the generated rows and sags.
//!
//! Every returned number and every lent byte must be equal, every verdict of the entry must keep the demand with nothing
//! rounded, and every sort of beam, verdict and refusal must have occurred often enough to mean something.
#[path = "common/counts.rs"]
mod counts;
#[path = "compare_sags/judged.rs"]
mod judged;
#[path = "common/lent.rs"]
mod lent;
#[path = "compare_sags/refused.rs"]
mod refused;
#[path = "common/row_refusals.rs"]
mod row_refusals;
#[path = "compare_sags/sorts.rs"]
mod sorts;
#[path = "compare_sags/verdicts.rs"]
mod verdicts;

use counts::{assert_lengths, assert_lent_lengths, count_answer, AnswerLengths};
use lent::both_on;
use lvl_addin::answer::Refusal;
use lvl_addin::entry;
use lvl_second::rows::LONGEST_ROW;
use lvl_second::sags::{SagCase, SagCases, LONGEST_ANSWER, LONGEST_SAG};
use lvl_second::{Paper, Rules, SagRules};
use refused::RefusedTally;
use std::collections::BTreeMap;
use verdicts::VerdictTally;

/// The sags that are compared; half a million are demanded.
const SAGS: u64 = 1_000_000;

/// The least number of rows, sags and answers of each length.
const LEAST_OF_LENGTH: u64 = 100;

/// What has been seen.
#[derive(Default)]
struct Tally {
    sags: u64,
    verdicts: VerdictTally,
    refused: RefusedTally,
    row_lengths: BTreeMap<usize, u64>,
    /// Of those whose row is taken.
    sag_lengths: BTreeMap<usize, u64>,
    answer_lengths: AnswerLengths,
}

fn compare(case: &SagCase, tally: &mut Tally) {
    let salt = tally.sags;
    tally.sags += 1;
    *tally.row_lengths.entry(case.row().len()).or_default() += 1;
    let (code, mut lent) = both_on(
        |lent| entry::check_sag_bytes(case.row(), case.sag(), lent),
        |lent| lvl_second::check_sag_bytes(case.row(), case.sag(), lent),
        (case.row(), case.sag()),
        case.answer,
        salt,
    );
    if Paper::read_row(case.row()).is_ok_and(|cells| Paper::sagging_member(&cells).is_ok()) {
        *tally.sag_lengths.entry(case.sag().len()).or_default() += 1;
    }
    let refusal = Refusal::from_code(code);
    count_answer(&mut tally.answer_lengths, case.answer, refusal);
    match refusal {
        Some(refusal) => tally.refused.count(case, refusal),
        None => tally.verdicts.count(case, code == 0, lent.part()),
    }
}

fn assert_every_length(tally: &Tally) {
    assert_lengths("rows", LONGEST_ROW, LEAST_OF_LENGTH, |length| {
        tally.row_lengths.get(&length).copied()
    });
    assert_lengths("sags", LONGEST_SAG, LEAST_OF_LENGTH, |length| {
        tally.sag_lengths.get(&length).copied()
    });
    assert_lent_lengths(
        "answers",
        &tally.answer_lengths,
        LONGEST_ANSWER,
        LEAST_OF_LENGTH,
    );
}

#[test]
fn the_entry_and_the_second_implementation_agree() {
    let mut tally = Tally::default();
    for case in SagCases::new().take(SAGS as usize) {
        compare(&case, &mut tally);
    }
    println!("{} sags compared", tally.sags);
    tally.verdicts.print();
    tally.refused.print();
    assert!(tally.sags >= 500_000);
    tally.verdicts.assert_every_sort();
    tally.refused.assert_every_sort();
    assert_every_length(&tally);
}

/// Slices that point nowhere are as good as any without bytes.
#[test]
fn the_entry_takes_empty_slices() {
    assert_eq!(entry::check_sag_bytes(&[], &[], &mut []), 1000);
}
