//! Floor beams worked by hand and the order of their refusals, on the entry and on the second implementation.
use lvl_addin::answer::{Refusal, Verdict};
use lvl_addin::entry;
use lvl_addin::floor_beam::{BeamVerdict, BEAM_ANSWER_BYTES, BEAM_BYTES};
use lvl_second::beams::faults::{all, pairs, spoil};
use lvl_second::beams::{bytes_of, Numbers, LONGEST_ANSWER, LONGEST_BEAM};
use lvl_second::floor_beam::{LOAD_CELLS, ROW_CELLS};
use lvl_second::rows::faults::{Fault, Placed};
use lvl_second::rows::random::Random;

/// Worked row A's section: 75 by 300, K45, dry. In regime В MR is 28,957,500 N·mm and the shear capacity 40,590 N.
fn beam(first: u64, second: u64, span: u64) -> Numbers {
    [first, second, span, 1, 10, 1000, 75, 300]
}

/// What both implementations return and leave in an answer of this length.
fn answers(bytes: &[u8], length: usize) -> [(u64, Vec<u8>); 2] {
    let entries = [
        entry::check_floor_beam_bytes,
        lvl_second::check_floor_beam_bytes,
    ];
    entries.map(|check| {
        let mut answer = vec![0xA5; length];
        (check(bytes, &mut answer), answer)
    })
}

/// Holds both implementations to an answer: regime, M, Q, check and utilisation.
fn assert_answer(beam: &Numbers, made: (u32, u64, u64), check: u32, utilisation: u32) {
    let (regime, moment, shear) = made;
    let expected = BeamVerdict {
        verdict: Verdict {
            passes: utilisation <= 1_000_000,
            check,
            utilisation,
            count: 0,
        },
        regime,
        moment,
        shear,
    };
    for (code, answer) in answers(&bytes_of(beam), BEAM_ANSWER_BYTES) {
        let answer: [u8; BEAM_ANSWER_BYTES] = answer.try_into().expect("48 bytes");
        assert_eq!(
            entry::beam_verdict(code == 0, &answer),
            expected,
            "{beam:?}"
        );
        assert!(code < 2, "{beam:?}");
    }
}

/// Holds both implementations to a refusal that writes nothing.
fn assert_refused(bytes: &[u8], length: usize, expected: Refusal, what: &str) {
    for (code, answer) in answers(bytes, length) {
        assert_eq!(Refusal::from_code(code), Some(expected), "{what}");
        assert!(answer.iter().all(|&byte| byte == 0xA5), "{what}");
    }
}

#[test]
fn a_beam_of_5_kilonewtons_per_metre() {
    // M = 5000 × 16,000,000 / 8000 and Q = 5000 × 4000 / 2000; M over MR is 0.34533…
    assert_answer(&beam(2000, 3000, 4000), (3, 10_000_000, 10_000), 7, 345_334);
}

#[test]
fn eighty_percent_is_short_term() {
    assert_answer(&beam(4000, 1000, 4000), (3, 10_000_000, 10_000), 7, 345_334);
    // R is 39,000 × 0.53 = 20,670 kPa and MR 23,253,750 N·mm.
    assert_answer(&beam(4001, 999, 4000), (2, 10_000_000, 10_000), 7, 430_039);
    assert_answer(&beam(3999, 1001, 4000), (3, 10_000_000, 10_000), 7, 345_334);
}

/// M is 100 × 501² / 8000 = 3137.5125 and Q 25.05.
#[test]
fn forces_are_rounded_up() {
    assert_answer(&beam(0, 100, 501), (3, 3138, 26), 8, 641);
}

/// Q is 40,590.5 N, half a newton more than the beam bears.
#[test]
fn half_a_newton_too_much() {
    assert_answer(
        &beam(0, 81_180, 1000),
        (3, 10_147_500, 40_590),
        8,
        1_000_000,
    );
    assert_answer(
        &beam(0, 81_181, 1000),
        (3, 10_147_625, 40_591),
        8,
        1_000_025,
    );
}

/// The span is to the height as 39,000 to 4100, so that checks 7 and 8 are used alike: the lower number is named.
#[test]
fn equals_name_the_lower_check() {
    // 250 by 410: MR is 180,287,250 N·mm and the shear capacity 184,910 N.
    let beam = [0, 4000, 3900, 1, 10, 1000, 250, 410];
    assert_answer(&beam, (3, 7_605_000, 7800), 7, 42_183);
}

/// The refusal of one fault.
fn refusal((place, fault): Placed) -> Refusal {
    let Some(at) = place.checked_sub(LOAD_CELLS) else {
        return Refusal { number: 8, cell: 0 };
    };
    let cell = ROW_CELLS[at] as u32;
    let number = match fault {
        Fault::Unreadable => 1,
        Fault::Blank => 2,
        Fault::Outside if cell == 2 => 3,
        Fault::Outside => 4,
    };
    Refusal { number, cell }
}

/// Where a refusal stands in the order.
fn order(refusal: &Refusal) -> (Option<usize>, u32) {
    let numbers = [8, 1, 2, 3, 4, 5];
    let at = numbers.iter().position(|&number| number == refusal.number);
    (at, refusal.cell)
}

/// A good beam with these faults, each in one of its forms.
fn spoilt(random: &mut Random, faults: &[Placed]) -> [u8; BEAM_BYTES] {
    let mut bytes = bytes_of(&beam(2000, 3000, 4000));
    for &fault in faults {
        spoil(random, &mut bytes, fault);
    }
    bytes
}

/// How often each fault is drawn, since it has several forms.
const DRAWS: usize = 30;

#[test]
fn of_two_faults_the_first_in_the_order_is_told() {
    let mut random = Random::new(10);
    let singles = all().map(|fault| vec![fault]);
    for faults in singles.chain(pairs().map(Vec::from)) {
        let refusals = faults.iter().copied().map(refusal);
        let told = refusals.min_by_key(order).expect("there is a fault");
        for _ in 0..DRAWS {
            let bytes = spoilt(&mut random, &faults);
            for length in [BEAM_ANSWER_BYTES, 24, 0] {
                let what = format!("{faults:?}, {bytes:?}, {length} bytes lent");
                assert_refused(&bytes, length, told, &what);
            }
        }
    }
}

#[test]
fn another_length_is_told_before_all_else() {
    let mut random = Random::new(11);
    for fault in all() {
        let bytes = spoilt(&mut random, &[fault]);
        let longer = [bytes.as_slice(), &[1; LONGEST_BEAM - BEAM_BYTES]].concat();
        for length in (0..=LONGEST_BEAM).filter(|&length| length != BEAM_BYTES) {
            let what = format!("{fault:?}, {length} bytes given");
            let told = Refusal { number: 1, cell: 0 };
            assert_refused(&longer[..length], BEAM_ANSWER_BYTES, told, &what);
            assert_refused(&longer[..length], 0, told, &what);
        }
    }
}

#[test]
fn another_answer_length_is_told_last() {
    let bytes = bytes_of(&beam(2000, 3000, 4000));
    for length in (0..=LONGEST_ANSWER).filter(|&length| length != BEAM_ANSWER_BYTES) {
        let told = Refusal { number: 5, cell: 0 };
        assert_refused(&bytes, length, told, &format!("{length} bytes lent"));
    }
}
