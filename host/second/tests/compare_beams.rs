//! The add-in's entry for floor beams against the second implementation, on the generated beams.
//!
//! Every returned number and every lent byte must be equal, every verdict of the entry must keep the demand with M and
//! Q unrounded, and every sort of beam, verdict and refusal must have occurred often enough to mean something.
#[path = "common/both.rs"]
mod both;
#[path = "common/counts.rs"]
mod counts;

use both::both;
use counts::{assert_lengths, assert_lent_lengths, assert_occurred, count_answer, AnswerLengths};
use lvl_addin::answer::Refusal;
use lvl_addin::entry;
use lvl_addin::floor_beam::{BeamVerdict, BEAM_ANSWER_BYTES};
use lvl_second::beams::{
    floor_beam, BeamCase, BeamCases, Numbers, FIRST_LOAD, LONGEST_ANSWER, LONGEST_BEAM,
    SECOND_LOAD, SPAN,
};
use lvl_second::floor_demand;
use lvl_second::{BeamRead, FloorRules, Paper, Rules};
use std::collections::BTreeMap;

/// The beams that are compared.
const BEAMS: u64 = 1_000_000;

/// The least number of beams in a class of verdicts, and of a sort.
const LEAST_IN_CLASS: u64 = 10_000;
const LEAST_OF_SORT: u64 = 1000;

/// The least number of each refusal, and of beams and answers of each length.
const LEAST_OF_REFUSAL: u64 = 1000;
const LEAST_OF_LENGTH: u64 = 100;

/// The regime, the check that is named, and whether the beam passes: all eight occur.
type Class = (u32, u32, bool);

const CLASSES: usize = 8;

/// Every refusal that can occur, by its cells. M and Q are always in range, and the regime's code is always known.
const REFUSALS: [(u32, &[u32]); 6] = [
    (1, &[0, 2, 4, 5, 6, 7]),
    (2, &[2, 4, 5, 6, 7]),
    (3, &[2]),
    (4, &[4, 5, 6, 7]),
    (5, &[0]),
    (8, &[0]),
];

/// A beam that is judged.
struct Judged {
    first: u64,
    second: u64,
    total: u64,
    span: u64,
    answer: BeamVerdict,
    /// The utilisations of checks 7 and 8.
    used: [u64; 2],
    /// What M and Q have above the capacities, in parts of 8000 and of 2000.
    above: [i64; 2],
}

impl Judged {
    fn new(beam: &Numbers, answer: BeamVerdict) -> Judged {
        let row = Paper::beam_row(&floor_beam(beam));
        let member = Paper::accept(&row).expect("a judged beam's row is accepted");
        let (width, height) = (member.width, member.height);
        let bending = Paper::bending_capacity(width, height, Paper::design_bending(&member));
        let shear = Paper::shear_capacity(width, height, Paper::design_shear(&member));
        let (first, second, span) = (beam[FIRST_LOAD], beam[SECOND_LOAD], beam[SPAN]);
        let total = first + second;
        Judged {
            first,
            second,
            total,
            span,
            answer,
            used: [Paper::bending(&member), Paper::shear(&member)],
            above: [
                (total * span * span) as i64 - (8000 * bending) as i64,
                (total * span) as i64 - (2000 * shear) as i64,
            ],
        }
    }

    /// Five times what the first load has above 80 percent of the total.
    fn above_the_line(&self) -> i64 {
        5 * self.first as i64 - 4 * self.total as i64
    }

    /// The named check and its utilisation.
    fn named(&self) -> (u32, u32) {
        (self.answer.verdict.check, self.answer.verdict.utilisation)
    }
}

/// A sort of cases, and whether a case is of it.
type Sort<T> = (&'static str, fn(&T) -> bool);

const JUDGED_SORTS: [Sort<Judged>; 26] = [
    ("q 100", |beam| beam.total == 100),
    ("q 101", |beam| beam.total == 101),
    ("q 99,999", |beam| beam.total == 99_999),
    ("q 100,000", |beam| beam.total == 100_000),
    ("span 500", |beam| beam.span == 500),
    ("span 501", |beam| beam.span == 501),
    ("span 19,999", |beam| beam.span == 19_999),
    ("span 20,000", |beam| beam.span == 20_000),
    ("no first load", |beam| beam.first == 0),
    ("no second load", |beam| beam.second == 0),
    ("just 80 percent", |beam| beam.above_the_line() == 0),
    ("1 N/m above", |beam| beam.above_the_line() == 5),
    ("1 N/m below", |beam| beam.above_the_line() == -5),
    ("less than 1 N/m above", |beam| {
        (1..5).contains(&beam.above_the_line())
    }),
    ("less than 1 N/m below", |beam| {
        (-4..0).contains(&beam.above_the_line())
    }),
    ("M whole", |beam| {
        (beam.total * beam.span * beam.span) % 8000 == 0
    }),
    ("M with a fraction", |beam| {
        (beam.total * beam.span * beam.span) % 8000 != 0
    }),
    ("Q whole", |beam| (beam.total * beam.span) % 2000 == 0),
    ("Q with a fraction", |beam| {
        (beam.total * beam.span) % 2000 != 0
    }),
    ("7 at 1,000,000", |beam| beam.named() == (7, 1_000_000)),
    ("8 at 1,000,000", |beam| beam.named() == (8, 1_000_000)),
    ("7 fails by less than 1 N·mm", |beam| {
        beam.named().0 == 7 && (1..8000).contains(&beam.above[0])
    }),
    ("8 fails by less than 1 N", |beam| {
        beam.named().0 == 8 && (1..2000).contains(&beam.above[1])
    }),
    ("utilisation capped", |beam| beam.named().1 == 9_999_999),
    ("7 and 8 used alike, uncapped", |beam| {
        beam.used[0] == beam.used[1] && beam.used[0] < 9_999_999
    }),
    ("7 and 8 both capped", |beam| beam.used == [9_999_999; 2]),
];

/// The numbers of both loads and the span, where all three read and are filled.
fn loads(read: &BeamRead) -> Option<[u64; 3]> {
    match *read {
        [Some(Some(first)), Some(Some(second)), Some(Some(span)), ..] => {
            Some([first, second, span])
        }
        _ => None,
    }
}

fn total_is(read: &BeamRead, is: impl Fn(u64) -> bool) -> bool {
    loads(read).is_some_and(|[first, second, _]| is(first + second))
}

fn span_is(read: &BeamRead, is: impl Fn(u64) -> bool) -> bool {
    loads(read).is_some_and(|[_, _, span]| is(span))
}

/// The sorts of beams with refusal 8.
const LOAD_SORTS: [Sort<BeamRead>; 15] = [
    ("q 99", |read| total_is(read, |total| total == 99)),
    ("q 100,001", |read| total_is(read, |total| total == 100_001)),
    ("q of 33 bits and more", |read| {
        total_is(read, |total| total >= 1 << 32)
    }),
    ("q right but for bits above the 32nd", |read| {
        total_is(read, |total| {
            total >= 1 << 32 && (100..=100_000).contains(&(total % (1 << 32)))
        })
    }),
    ("first load alone too great", |read| {
        loads(read).is_some_and(|[first, second, _]| first > 100_000 && second <= 100_000)
    }),
    ("second load alone too great", |read| {
        loads(read).is_some_and(|[first, second, _]| first <= 100_000 && second > 100_000)
    }),
    ("only both loads together too great", |read| {
        loads(read).is_some_and(|[first, second, _]| {
            first <= 100_000 && second <= 100_000 && first + second > 100_000
        })
    }),
    ("span 499", |read| span_is(read, |span| span == 499)),
    ("span 20,001", |read| span_is(read, |span| span == 20_001)),
    ("first load blank", |read| read[FIRST_LOAD] == Some(None)),
    ("second load blank", |read| read[SECOND_LOAD] == Some(None)),
    ("span blank", |read| read[SPAN] == Some(None)),
    ("first load unreadable", |read| read[FIRST_LOAD].is_none()),
    ("second load unreadable", |read| read[SECOND_LOAD].is_none()),
    ("span unreadable", |read| read[SPAN].is_none()),
];

/// What has been seen.
#[derive(Default)]
struct Tally {
    beams: u64,
    judged: u64,
    classes: BTreeMap<Class, u64>,
    judged_sorts: [u64; JUDGED_SORTS.len()],
    refusals: BTreeMap<Refusal, u64>,
    load_sorts: [u64; LOAD_SORTS.len()],
    beam_lengths: BTreeMap<usize, u64>,
    answer_lengths: AnswerLengths,
}

/// Counts a case with every sort that it is of.
fn count<T>(sorts: &[Sort<T>], counts: &mut [u64], case: &T) {
    for ((_, is), count) in sorts.iter().zip(counts) {
        *count += u64::from(is(case));
    }
}

fn compare(case: &BeamCase, tally: &mut Tally) {
    let salt = tally.beams;
    tally.beams += 1;
    *tally.beam_lengths.entry(case.beam().len()).or_default() += 1;
    let (code, mut lent) = both(
        entry::check_floor_beam_bytes,
        lvl_second::check_floor_beam_bytes,
        case.beam(),
        case.answer,
        salt,
    );
    let refusal = Refusal::from_code(code);
    count_answer(&mut tally.answer_lengths, case.answer, refusal);
    match refusal {
        Some(refusal) => tally_refused(case, refusal, tally),
        None => tally_judged(case, code == 0, lent.part(), tally),
    }
}

fn tally_refused(case: &BeamCase, refusal: Refusal, tally: &mut Tally) {
    *tally.refusals.entry(refusal).or_default() += 1;
    if refusal.number == 8 {
        let read = Paper::read_beam_cells(case.beam()).expect("the length is right before 8");
        count(&LOAD_SORTS, &mut tally.load_sorts, &read);
    }
}

fn tally_judged(case: &BeamCase, passes: bool, answer: &[u8], tally: &mut Tally) {
    tally.judged += 1;
    let read = Paper::read_beam_cells(case.beam()).expect("a judged beam's length is right");
    let beam: Numbers = read.map(|cell| cell.flatten().expect("a judged beam reads"));
    let answer: &[u8; BEAM_ANSWER_BYTES] = answer.try_into().expect("its answer is whole");
    let answer = entry::beam_verdict(passes, answer);
    let class = (answer.regime, answer.verdict.check, passes);
    *tally.classes.entry(class).or_default() += 1;
    count(
        &JUDGED_SORTS,
        &mut tally.judged_sorts,
        &Judged::new(&beam, answer),
    );
    if let Err(why) = floor_demand::keeps(&beam, &answer.verdict) {
        panic!("{why}, {beam:?}, {answer:?}");
    }
}

fn print(tally: &Tally) {
    println!(
        "{} floor beams compared, {} of them judged; the demand held to 1.005 on every one judged",
        tally.beams, tally.judged
    );
    println!("\nregime  check  verdict    beams");
    for (&(regime, check, passes), beams) in &tally.classes {
        let verdict = if passes { "pass" } else { "fail" };
        println!("{regime:>6}  {check:>5}  {verdict:>7}  {beams:>7}");
    }
    print_sorts("judged", &JUDGED_SORTS, &tally.judged_sorts);
    println!("\nrefusal, cell: beams");
    for (refusal, beams) in &tally.refusals {
        println!("{}, {}: {beams}", refusal.number, refusal.cell);
    }
    print_sorts("refused by 8", &LOAD_SORTS, &tally.load_sorts);
}

fn print_sorts<T>(what: &str, sorts: &[Sort<T>], counts: &[u64]) {
    println!("\n{what}: beams");
    for ((name, _), beams) in sorts.iter().zip(counts) {
        println!("{name}: {beams}");
    }
}

/// Holds the classes and refusals that have occurred to those that can.
fn assert_classes(tally: &Tally) {
    assert_eq!(tally.classes.len(), CLASSES);
    for (class, &beams) in &tally.classes {
        assert!(
            beams >= LEAST_IN_CLASS,
            "only {beams} beams in class {class:?}"
        );
    }
    let listed: Vec<Refusal> = REFUSALS
        .iter()
        .flat_map(|&(number, cells)| cells.iter().map(move |&cell| Refusal { number, cell }))
        .collect();
    assert_occurred("beams with", &tally.refusals, &listed, LEAST_OF_REFUSAL);
}

fn assert_sorts<T>(sorts: &[Sort<T>], counts: &[u64]) {
    for ((name, _), &beams) in sorts.iter().zip(counts) {
        assert!(
            beams >= LEAST_OF_SORT,
            "only {beams} beams of the sort '{name}'"
        );
    }
}

fn assert_every_length(tally: &Tally) {
    assert_lengths("beams", LONGEST_BEAM, LEAST_OF_LENGTH, |length| {
        tally.beam_lengths.get(&length).copied()
    });
    assert_lent_lengths(
        "answers",
        &tally.answer_lengths,
        LONGEST_ANSWER,
        LEAST_OF_LENGTH,
    );
}

#[test]
fn the_entry_and_the_second_implementation_agree() {
    let mut tally = Tally::default();
    for case in BeamCases::new().take(BEAMS as usize) {
        compare(&case, &mut tally);
    }
    print(&tally);
    assert_classes(&tally);
    assert_sorts(&JUDGED_SORTS, &tally.judged_sorts);
    assert_sorts(&LOAD_SORTS, &tally.load_sorts);
    assert_every_length(&tally);
}

/// Slices that point nowhere are as good as any without bytes.
#[test]
fn the_entry_takes_empty_slices() {
    assert_eq!(entry::check_floor_beam_bytes(&[], &mut []), 1000);
}
