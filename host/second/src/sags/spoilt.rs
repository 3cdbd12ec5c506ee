//! The cases that come one by one by their bytes: every first byte and float in every cell of a sag, every fault of a
//! sag and of a row of every kind, alone and together, and every length.
use super::listed::{good, GOOD_SAG};
use super::row_edges::rows_of_every_kind;
use super::{bytes_of, faults, SagCase, LONGEST_ANSWER, LONGEST_SAG};
use crate::rows;
use crate::rows::damaged::{put, FLOATS};
use crate::rows::faults::{of_row, spoilt_row, Placed};
use crate::rows::random::Random;
use crate::rows::LONGEST_ROW;
use lvl_addin::row::{ANSWER_BYTES, ROW_BYTES};
use lvl_addin::sag::{SAG_ANSWER_BYTES, SAG_BYTES, SAG_CELLS};

pub fn cases() -> Vec<SagCase> {
    let mut random = Random::new(20);
    let mut cases = Vec::new();
    cases.extend(first_bytes());
    cases.extend(floats());
    cases.extend(faulty_sags(&mut random));
    cases.extend(faulty_rows(&mut random));
    let given = good_and_spoilt(&mut random);
    for (row, sag) in &given {
        let case = SagCase::new(row, sag);
        cases.extend(row_lengths(&case));
        cases.extend(sag_lengths(&case));
        cases.extend(answer_lengths(&case));
    }
    cases
}

fn good_row() -> [u8; ROW_BYTES] {
    rows::bytes_of(&good().cells)
}

/// Every first byte in every cell of the sag.
fn first_bytes() -> impl Iterator<Item = SagCase> {
    (0..SAG_CELLS).flat_map(|place| {
        (0..=255).map(move |first_byte| {
            let mut sag = bytes_of(&GOOD_SAG);
            sag[9 * place] = first_byte;
            SagCase::new(&good_row(), &sag)
        })
    })
}

/// Every float at an edge of what reads, in every cell of the sag.
fn floats() -> impl Iterator<Item = SagCase> {
    (0..SAG_CELLS).flat_map(|place| {
        FLOATS.map(|float| {
            let mut sag = bytes_of(&GOOD_SAG);
            put(&mut sag, 9 * place, float);
            SagCase::new(&good_row(), &sag)
        })
    })
}

/// A sag with these faults.
fn spoilt_sag(random: &mut Random, placed: &[Placed]) -> [u8; SAG_BYTES] {
    let mut sag = bytes_of(&GOOD_SAG);
    for &fault in placed {
        faults::spoil(random, &mut sag, fault);
    }
    sag
}

/// Every fault and every two faults of a sag.
fn every_faulty_sag(random: &mut Random) -> Vec<[u8; SAG_BYTES]> {
    let singles = faults::all().map(|fault| vec![fault]);
    let all = singles.chain(faults::pairs().map(Vec::from));
    all.map(|placed| spoilt_sag(random, &placed)).collect()
}

/// Every fault and every two faults of a sag with a good row of each kind, with the right answer's length and with that
/// of a row.
fn faulty_sags(random: &mut Random) -> Vec<SagCase> {
    let mut cases = Vec::new();
    for cells in rows_of_every_kind() {
        for sag in every_faulty_sag(random) {
            cases.extend(with_both_answers(SagCase::new(
                &rows::bytes_of(&cells),
                &sag,
            )));
        }
    }
    cases
}

fn with_both_answers(case: SagCase) -> impl Iterator<Item = SagCase> {
    [SAG_ANSWER_BYTES, ANSWER_BYTES]
        .into_iter()
        .map(move |answer| SagCase {
            answer,
            ..case.clone()
        })
}

/// Every fault of a good row of each kind, with a good sag, with each fault of one and with one cut off.
fn faulty_rows(random: &mut Random) -> Vec<SagCase> {
    let mut cases = Vec::new();
    for cells in rows_of_every_kind() {
        for fault in of_row(&cells) {
            let good_sag =
                SagCase::new(&spoilt_row(random, &cells, &[fault]), &bytes_of(&GOOD_SAG));
            cases.extend(with_both_answers(with_sag_length(&good_sag, SAG_BYTES - 9)));
            cases.extend(with_both_answers(good_sag));
            for sag_fault in faults::all() {
                let row = spoilt_row(random, &cells, &[fault]);
                cases.push(SagCase::new(&row, &spoilt_sag(random, &[sag_fault])));
            }
        }
    }
    cases
}

fn with_sag_length(case: &SagCase, length: usize) -> SagCase {
    SagCase {
        sag: case.sag.clone().with_length(length),
        ..case.clone()
    }
}

/// Every length of the row.
fn row_lengths(case: &SagCase) -> impl Iterator<Item = SagCase> + '_ {
    (0..=LONGEST_ROW).map(|length| SagCase {
        row: case.row.clone().with_length(length),
        ..case.clone()
    })
}

/// Every length of the sag.
fn sag_lengths(case: &SagCase) -> impl Iterator<Item = SagCase> + '_ {
    (0..=LONGEST_SAG).map(|length| with_sag_length(case, length))
}

/// Every length of the answer.
fn answer_lengths(case: &SagCase) -> impl Iterator<Item = SagCase> + '_ {
    (0..=LONGEST_ANSWER).map(|answer| SagCase {
        answer,
        ..case.clone()
    })
}

/// A good row of each kind with a good sag and with each fault of one, and rows with a fault.
fn good_and_spoilt(random: &mut Random) -> Vec<([u8; ROW_BYTES], [u8; SAG_BYTES])> {
    let mut given = Vec::new();
    for cells in rows_of_every_kind() {
        let row = rows::bytes_of(&cells);
        given.push((row, bytes_of(&GOOD_SAG)));
        for fault in faults::all() {
            given.push((row, spoilt_sag(random, &[fault])));
        }
    }
    for fault in of_row(&good().cells) {
        let row = spoilt_row(random, &good().cells, &[fault]);
        given.push((row, bytes_of(&GOOD_SAG)));
    }
    given
}
