//! The order of refusals: each fault alone, and which of two is told.
use crate::answer;
use crate::row_order::first_told;
use lvl_addin::answer::Refusal;
use lvl_addin::row::ROW_BYTES;
use lvl_addin::strengths::STRENGTHS_BYTES;
use lvl_second::rows::faults::{self, of_row, spoilt_row};
use lvl_second::rows::random::Random;
use lvl_second::rows::worked::{e, of_every_kind};
use lvl_second::rows::{bytes_of, strength_answers, LONGEST_ROW};

/// Holds both implementations to a refusal.
fn assert_refused(row: &[u8], length: usize, expected: Refusal, what: &str) {
    let (code, _) = answer(row, length);
    assert_eq!(Refusal::from_code(code), Some(expected), "{what}");
}

/// How often each fault is drawn, since it has several forms.
const DRAWS: usize = 10;

#[test]
fn of_two_faults_the_first_in_the_order_is_told() {
    let mut random = Random::new(13);
    for cells in of_every_kind() {
        let singles = of_row(&cells).map(|fault| vec![fault]);
        let pairs = faults::pairs(of_row(&cells)).map(Vec::from);
        for faults in singles.chain(pairs) {
            let told = first_told(&cells, &faults).expect("there is a fault");
            for _ in 0..DRAWS {
                let row = spoilt_row(&mut random, &cells, &faults);
                for length in [STRENGTHS_BYTES, 24, 0] {
                    let what = format!("{faults:?}, {row:?}, {length} bytes lent");
                    assert_refused(&row, length, told, &what);
                }
            }
        }
    }
}

#[test]
fn another_length_of_the_row_is_told_before_all_else() {
    let mut random = Random::new(14);
    let told = Refusal { number: 1, cell: 0 };
    for fault in of_row(&e()) {
        let row = spoilt_row(&mut random, &e(), &[fault]);
        let longer = [row.as_slice(), &[1; LONGEST_ROW - ROW_BYTES]].concat();
        for length in (0..=LONGEST_ROW).filter(|&length| length != ROW_BYTES) {
            let what = format!("{fault:?}, {length} bytes given");
            assert_refused(&longer[..length], STRENGTHS_BYTES, told, &what);
            assert_refused(&longer[..length], 0, told, &what);
        }
    }
}

/// Every length but 64 is another: 63 and 65, none at all, and the 24 of checking.
#[test]
fn another_length_of_the_answer_is_told_last() {
    let told = Refusal { number: 5, cell: 0 };
    for row in of_every_kind().map(|cells| bytes_of(&cells)) {
        for length in (0..64).chain(65..=strength_answers::LONGEST) {
            assert_refused(&row, length, told, &format!("{length} bytes lent"));
        }
    }
}
