//! The order of refusals: those of the row, then 9, then 10, and last 5.
use crate::answer;
use crate::row_order::first_told;
use lvl_addin::answer::Refusal;
use lvl_addin::row::ROW_BYTES;
use lvl_addin::sag::{SAG_ANSWER_BYTES, SAG_BYTES};
use lvl_second::cells::{cell, Cells, KIND};
use lvl_second::rows;
use lvl_second::rows::faults::{of_row, spoilt_row, Placed};
use lvl_second::rows::random::Random;
use lvl_second::rows::worked::{a, of_every_kind};
use lvl_second::rows::LONGEST_ROW;
use lvl_second::sag::Sag;
use lvl_second::sags::faults::{all, pairs, spoil};
use lvl_second::sags::{bytes_of, LONGEST_ANSWER, LONGEST_SAG};

/// A sag of worked row A without faults.
const SAG: Sag = Sag {
    span: 6000,
    moment: 15_000_000,
    limit: 200,
};

const NO_ROW: Refusal = Refusal { number: 1, cell: 0 };
const OTHER_KIND: Refusal = Refusal { number: 9, cell: 1 };
const NO_SAG: Refusal = Refusal {
    number: 10,
    cell: 0,
};
const NO_ANSWER: Refusal = Refusal { number: 5, cell: 0 };

/// Holds both implementations to a refusal, or to a verdict where there is none.
fn assert_told(row: &[u8], sag: &[u8], length: usize, expected: Option<Refusal>, what: &str) {
    let (code, _) = answer(row, sag, length);
    assert_eq!(Refusal::from_code(code), expected, "{what}");
}

/// The sag with these faults, each in one of its forms.
fn spoilt_sag(random: &mut Random, faults: &[Placed]) -> [u8; SAG_BYTES] {
    let mut sag = bytes_of(&SAG);
    for &fault in faults {
        spoil(random, &mut sag, fault);
    }
    sag
}

/// Sags with no fault, with each one and with each two, and of other lengths; and whether they are right.
fn sags(random: &mut Random) -> Vec<(Vec<u8>, bool)> {
    let good = bytes_of(&SAG);
    let mut sags = vec![
        (good.to_vec(), true),
        (good[..SAG_BYTES - 1].to_vec(), false),
        ([good.as_slice(), &[0]].concat(), false),
        (Vec::new(), false),
    ];
    let singles = all().map(|fault| vec![fault]);
    for faults in singles.chain(pairs().map(Vec::from)) {
        sags.push((spoilt_sag(random, &faults).to_vec(), false));
    }
    sags
}

/// What is told of a good row with these faults, a sag and an answer of a length.
fn due(cells: &Cells, faults: &[Placed], sag_is_right: bool, length: usize) -> Option<Refusal> {
    let of_kind = (cell(cells, KIND) != Some(2)).then_some(OTHER_KIND);
    let of_sag = (!sag_is_right).then_some(NO_SAG);
    let of_answer = (length != SAG_ANSWER_BYTES).then_some(NO_ANSWER);
    first_told(cells, faults)
        .or(of_kind)
        .or(of_sag)
        .or(of_answer)
}

/// How often each fault is drawn, since it has several forms.
const DRAWS: usize = 3;

#[test]
fn of_several_faults_the_first_in_the_order_is_told() {
    let mut random = Random::new(21);
    for cells in of_every_kind() {
        let none = std::iter::once(Vec::new());
        for faults in none.chain(of_row(&cells).map(|fault| vec![fault])) {
            for _ in 0..DRAWS {
                let row = spoilt_row(&mut random, &cells, &faults);
                for (sag, is_right) in sags(&mut random) {
                    for length in [SAG_ANSWER_BYTES, 24, 0] {
                        let what = format!("{faults:?}, {row:?}, {sag:?}, {length} bytes lent");
                        let told = due(&cells, &faults, is_right, length);
                        assert_told(&row, &sag, length, told, &what);
                    }
                }
            }
        }
    }
}

#[test]
fn another_length_of_the_row_is_told_before_all_else() {
    let mut random = Random::new(22);
    for fault in of_row(&a()) {
        let row = spoilt_row(&mut random, &a(), &[fault]);
        let longer = [row.as_slice(), &[1; LONGEST_ROW - ROW_BYTES]].concat();
        for length in (0..=LONGEST_ROW).filter(|&length| length != ROW_BYTES) {
            let what = format!("{fault:?}, {length} bytes given");
            for sag in [bytes_of(&SAG).as_slice(), &[]] {
                assert_told(
                    &longer[..length],
                    sag,
                    SAG_ANSWER_BYTES,
                    Some(NO_ROW),
                    &what,
                );
                assert_told(&longer[..length], sag, 0, Some(NO_ROW), &what);
            }
        }
    }
}

/// Every length but 27 is another, however good the cells are.
#[test]
fn another_length_of_the_sag_is_told_after_the_kind() {
    let longer = [bytes_of(&SAG).as_slice(), &[1; LONGEST_SAG - SAG_BYTES]].concat();
    for cells in of_every_kind() {
        let row = rows::bytes_of(&cells);
        for length in (0..27).chain(28..=LONGEST_SAG) {
            let what = format!("{cells:?}, {length} bytes given");
            for lent in [SAG_ANSWER_BYTES, 0] {
                let told = due(&cells, &[], false, lent);
                assert_told(&row, &longer[..length], lent, told, &what);
            }
        }
    }
}

/// Every length but 56 is another: 55 and 57, none at all, and the 24 of checking.
#[test]
fn another_length_of_the_answer_is_told_last() {
    let row = rows::bytes_of(&a());
    for length in (0..56).chain(57..=LONGEST_ANSWER) {
        let what = format!("{length} bytes lent");
        assert_told(&row, &bytes_of(&SAG), length, Some(NO_ANSWER), &what);
    }
}
