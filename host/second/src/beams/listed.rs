//! The cases that come one by one: the ends of every range, the line of 80 percent, great loads, the least sections,
//! every fault and every two faults at once, every first byte and float in every cell, every length.
use super::faults::{all, pairs, spoil};
use super::judged::around_the_turn;
use super::{
    bytes_of, BeamCase, Numbers, FIRST_LOAD, LONGEST_ANSWER, LONGEST_BEAM, SECOND_LOAD, SPAN,
};
use crate::rows::damaged::{put, FLOATS};
use crate::rows::faults::Placed;
use crate::rows::random::Random;
use lvl_addin::floor_beam::{BEAM_ANSWER_BYTES, BEAM_BYTES, BEAM_CELLS};

/// A beam that passes: 75 by 300 as in worked row A, over 4 m.
const GOOD: Numbers = [2000, 3000, 4000, 1, 10, 1000, 75, 300];

pub fn cases() -> Vec<BeamCase> {
    let mut beams = Vec::new();
    beams.extend(range_ends());
    beams.extend(the_line());
    beams.extend(great_loads());
    beams.extend(least_sections());
    let mut cases: Vec<BeamCase> = beams.iter().map(|beam| right(&bytes_of(beam))).collect();
    cases.extend(first_bytes());
    cases.extend(floats());
    cases.extend(faulty());
    cases.extend(beam_lengths());
    cases.extend(answer_lengths());
    cases
}

fn right(beam: &[u8; BEAM_BYTES]) -> BeamCase {
    BeamCase::new(beam)
}

fn loaded(first: u64, second: u64, span: u64) -> Numbers {
    let mut beam = GOOD;
    beam[FIRST_LOAD] = first;
    beam[SECOND_LOAD] = second;
    beam[SPAN] = span;
    beam
}

/// Totals and spans at the ends of their ranges, on either load alone and on both.
fn range_ends() -> impl Iterator<Item = Numbers> {
    let totals = [0, 1, 99, 100, 101, 99_999, 100_000, 100_001];
    let spans = [0, 499, 500, 501, 19_999, 20_000, 20_001];
    totals.into_iter().flat_map(move |total| {
        spans.into_iter().flat_map(move |span| {
            [0, total / 2, total * 4 / 5, total].map(|first| loaded(first, total - first, span))
        })
    })
}

/// First loads around 80 percent of every small total.
fn the_line() -> impl Iterator<Item = Numbers> {
    (100..=300_u64).flat_map(|total| {
        let line = total * 4 / 5;
        (line - 1..=line + 1).map(move |first| loaded(first, total - first, 4000))
    })
}

/// Loads far above every total, up to the greatest numbers that read.
fn great_loads() -> impl Iterator<Item = Numbers> {
    let loads = [
        0,
        1,
        100,
        100_000,
        1 << 32,
        (1 << 32) - 1000,
        (1 << 34) - 2,
        (1 << 34) - 1,
    ];
    loads
        .into_iter()
        .flat_map(move |first| loads.map(|second| loaded(first, second, 4000)))
}

/// The weakest section of each grade, where roundings weigh most, at the turn of its verdict over short spans.
fn least_sections() -> impl Iterator<Item = Numbers> {
    (1..=3).flat_map(|grade| {
        (500..600)
            .step_by(3)
            .flat_map(move |span| around_the_turn([0, 0, span, grade, 60, 500, 20, 60]))
    })
}

/// Every first byte in every cell.
fn first_bytes() -> impl Iterator<Item = BeamCase> {
    (0..BEAM_CELLS).flat_map(|place| {
        (0..=255).map(move |first_byte| {
            let mut beam = bytes_of(&GOOD);
            beam[9 * place] = first_byte;
            right(&beam)
        })
    })
}

/// Every float at an edge of what reads, in every cell.
fn floats() -> impl Iterator<Item = BeamCase> {
    (0..BEAM_CELLS).flat_map(|place| {
        FLOATS.map(|float| {
            let mut beam = bytes_of(&GOOD);
            put(&mut beam, 9 * place, float);
            right(&beam)
        })
    })
}

/// A beam with these faults.
fn spoilt(random: &mut Random, faults: &[Placed]) -> [u8; BEAM_BYTES] {
    let mut beam = bytes_of(&GOOD);
    for &fault in faults {
        spoil(random, &mut beam, fault);
    }
    beam
}

/// Every fault and every two faults of two cells, each with the right answer's length and with another.
fn faulty() -> Vec<BeamCase> {
    let mut random = Random::new(8);
    let mut cases = Vec::new();
    let singles = all().map(|fault| vec![fault]);
    for faults in singles.chain(pairs().map(Vec::from)) {
        for answer in [BEAM_ANSWER_BYTES, BEAM_ANSWER_BYTES - 1] {
            cases.push(BeamCase {
                answer,
                ..right(&spoilt(&mut random, &faults))
            });
        }
    }
    cases
}

/// Every length of a good beam and of one with each fault.
fn beam_lengths() -> impl Iterator<Item = BeamCase> {
    good_and_spoilt().into_iter().flat_map(|beam| {
        (0..=LONGEST_BEAM).map(move |length| {
            let case = right(&beam);
            BeamCase {
                given: case.given.with_length(length),
                ..case
            }
        })
    })
}

/// Every length of the answer, for a good beam and for one with each fault.
fn answer_lengths() -> impl Iterator<Item = BeamCase> {
    good_and_spoilt().into_iter().flat_map(|beam| {
        (0..=LONGEST_ANSWER).map(move |answer| BeamCase {
            answer,
            ..right(&beam)
        })
    })
}

fn good_and_spoilt() -> Vec<[u8; BEAM_BYTES]> {
    let mut random = Random::new(9);
    let mut beams = vec![bytes_of(&GOOD)];
    beams.extend(all().map(|fault| spoilt(&mut random, &[fault])));
    beams
}
