//! Every material there is, in a beam and in rows of all kinds.
use crate::both::both;
use crate::exact::{assert_exact, given, Material, DURATIONS};
use crate::spread::Spread;
use lvl_addin::entry;
use lvl_addin::row::ROW_BYTES;
use lvl_addin::strengths::STRENGTHS_BYTES;
use lvl_second::rows::random::Random;
use lvl_second::rows::{bytes_of, judged, worked};

/// Grades, regimes, moistures and office factors.
const MATERIALS: u64 = 3 * 10 * 61 * 501;

/// The least number of unrounded strengths of a sort.
const LEAST_OF_SORT: u64 = 10_000;

fn every_material() -> impl Iterator<Item = Material> {
    (1..=3).flat_map(|grade| {
        DURATIONS.iter().flat_map(move |&(regime, _)| {
            (0..=60).flat_map(move |moisture| {
                (500..=1000).map(move |office_factor| Material {
                    grade,
                    regime,
                    moisture,
                    office_factor,
                })
            })
        })
    })
}

/// The kinds, with and without a joint.
#[rustfmt::skip]
const KINDS: [(u64, bool); 6] = [
    (1, false), (1, true), (2, false), (3, false), (4, false), (5, false),
];

/// How many rows of other sizes and forces each kind has, which the materials take in turns: a prime number, so that
/// none of them is tied to a factor.
const ROWS_OF_A_KIND: usize = 97;

fn rows_of_every_kind() -> [Vec<[u8; ROW_BYTES]>; KINDS.len()] {
    let mut random = Random::new(12);
    KINDS.map(|(kind, joint)| {
        let row = |_| bytes_of(&judged::row(&mut random, kind, joint));
        (0..ROWS_OF_A_KIND).map(row).collect()
    })
}

type Answer = [u8; STRENGTHS_BYTES];

/// The answer for a beam of this material, once both implementations agree on it.
fn answer_for_a_beam(material: &Material, salt: u64) -> Answer {
    let beam = bytes_of(&worked::a());
    let (code, mut lent) = both(
        entry::strengths_bytes,
        lvl_second::strengths_bytes,
        &material.put_into(beam),
        STRENGTHS_BYTES,
        salt,
    );
    assert_eq!(code, 0, "{material:?}");
    lent.part().try_into().expect("the answer is whole")
}

/// Holds the entry to an answer for another row of this material.
fn assert_same_in(row: [u8; ROW_BYTES], material: &Material, expected: &Answer) {
    let mut answer = [0xA5; STRENGTHS_BYTES];
    let code = entry::strengths_bytes(&material.put_into(row), &mut answer);
    assert!(
        code == 0 && answer == *expected,
        "{material:?} in {row:?}: {code}, {answer:?}"
    );
}

#[test]
fn every_material_has_exact_strengths_whatever_the_row() {
    let others = rows_of_every_kind();
    let mut spread = Spread::default();
    let mut materials = 0;
    for material in every_material() {
        let answer = answer_for_a_beam(&material, materials);
        let given = given(&answer);
        assert_exact(&material, &given);
        spread.count(&given);
        for rows in &others {
            let row = rows[materials as usize % ROWS_OF_A_KIND];
            assert_same_in(row, &material, &answer);
        }
        materials += 1;
    }
    println!(
        "{materials} materials compared, all there are; the same strengths in {} rows of all kinds",
        materials * KINDS.len() as u64
    );
    spread.print();
    assert_eq!(materials, MATERIALS);
    spread.assert_every_sort(LEAST_OF_SORT);
}
