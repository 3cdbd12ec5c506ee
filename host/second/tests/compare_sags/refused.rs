//! Which refusals there were, with what sag, and in what form each of its cells was wrong.
use crate::counts::assert_occurred;
use crate::row_refusals::{of_checking, refusals};
use lvl_addin::answer::Refusal;
use lvl_addin::sag::{SAG_ANSWER_BYTES, SAG_BYTES, SAG_CELLS};
use lvl_second::cells::{cell, FIRST_OF_JOINT, KIND};
use lvl_second::sags::SagCase;
use lvl_second::{Paper, Rules, SagRules};
use std::collections::BTreeMap;
use std::ops::RangeInclusive;

/// The least number of each refusal, of each with a sag of a state, of each kind refused, and of each form in which a
/// cell is wrong.
const LEAST_OF_REFUSAL: u64 = 100;
const LEAST_IN_STATE: u64 = 50;
const LEAST_OF_KIND: u64 = 100;
const LEAST_OF_FORM: u64 = 40;

/// What is wrong with a sag, if anything.
#[derive(Clone, Copy, Debug, PartialEq, Eq, PartialOrd, Ord)]
enum State {
    Good,
    Cell,
    Length,
}

const STATES: [State; 3] = [State::Good, State::Cell, State::Length];

impl State {
    fn of(sag: &[u8]) -> State {
        match Paper::read_sag(sag) {
            _ if sag.len() != SAG_BYTES => State::Length,
            Ok(_) => State::Good,
            Err(_) => State::Cell,
        }
    }
}

/// The number of a refusal, the state of the sag, and whether the answer has its length.
type Told = (u32, State, bool);

/// All that can occur: a sag is refused only where it is wrong, and an answer only where all else is right.
fn every_told() -> Vec<Told> {
    let mut list = vec![(5, State::Good, false)];
    for fits in [false, true] {
        for state in STATES {
            list.extend([1, 2, 3, 4, 9].map(|number| (number, state, fits)));
        }
        list.extend([(10, State::Cell, fits), (10, State::Length, fits)]);
    }
    list
}

/// A kind that refusal 9 refuses, whether it has a joint, and the state of the sag.
type OtherKind = (u64, bool, State);

fn every_other_kind() -> Vec<OtherKind> {
    let mut list = Vec::new();
    for (kind, joint) in [(1, false), (1, true), (3, false), (4, false), (5, false)] {
        list.extend(STATES.map(|state| (kind, joint, state)));
    }
    list
}

/// A form in which a cell may be wrong: by its first byte, its float and its range.
type Form = (&'static str, fn(u8, f64, &RangeInclusive<u64>) -> bool);

/// The least whole number that is too great to be read.
const TOO_GREAT: f64 = 17_179_869_184.0;

#[rustfmt::skip]
const FORMS: [Form; 14] = [
    ("blank", |tag, _, _| tag == 0),
    ("another first byte", |tag, _, _| tag > 1),
    ("negative", |tag, float, _| tag == 1 && float < 0.0 && float.is_finite()),
    ("a fraction", |tag, float, _| tag == 1 && float > 0.0 && float.fract() > 0.0),
    ("infinite", |tag, float, _| tag == 1 && float == f64::INFINITY),
    ("negative and infinite", |tag, float, _| tag == 1 && float == f64::NEG_INFINITY),
    ("no number", |tag, float, _| tag == 1 && float.is_nan()),
    ("above 34 bits", |tag, float, _| tag == 1 && float >= TOO_GREAT && float.is_finite()),
    ("0", |tag, float, _| tag == 1 && float.to_bits() == 0),
    ("−0", |tag, float, _| tag == 1 && float.to_bits() == 1 << 63),
    ("one below its range", |tag, float, range| tag == 1 && float == (range.start() - 1) as f64),
    ("one above its range", |tag, float, range| tag == 1 && float == (range.end() + 1) as f64),
    ("far above its range", |tag, float, range| tag == 1 && float > (range.end() + 1) as f64 && float < TOO_GREAT),
    ("right but for bits above the 32nd", |tag, float, range| tag == 1 && is_right_in_32_bits(float, range)),
];

fn is_right_in_32_bits(float: f64, range: &RangeInclusive<u64>) -> bool {
    let whole = float as u64;
    float < TOO_GREAT && whole >> 32 > 0 && range.contains(&(whole % (1 << 32)))
}

fn ranges() -> [RangeInclusive<u64>; SAG_CELLS] {
    [
        Paper::sag_span_range(),
        Paper::sag_moment_range(),
        Paper::sag_limit_range(),
    ]
}

/// The only cell of a sag that is wrong, if there is one.
fn only_wrong_cell(sag: &[u8]) -> Option<usize> {
    let read = Paper::read_sag_cells(sag).ok()?;
    let is_wrong = |place: &usize| {
        let number = Paper::sag_cell(read[*place]);
        number.is_none_or(|number| !ranges()[*place].contains(&number))
    };
    let wrong: Vec<usize> = (0..SAG_CELLS).filter(is_wrong).collect();
    match wrong[..] {
        [place] => Some(place),
        _ => None,
    }
}

/// What has been seen.
#[derive(Default)]
pub struct RefusedTally {
    refusals: BTreeMap<Refusal, u64>,
    told: BTreeMap<Told, u64>,
    kinds: BTreeMap<OtherKind, u64>,
    /// By cell and form, where that cell alone is wrong.
    forms: [[u64; FORMS.len()]; SAG_CELLS],
}

impl RefusedTally {
    pub fn count(&mut self, case: &SagCase, refusal: Refusal) {
        *self.refusals.entry(refusal).or_default() += 1;
        let fits = case.answer == SAG_ANSWER_BYTES;
        let told = (refusal.number, State::of(case.sag()), fits);
        *self.told.entry(told).or_default() += 1;
        match refusal.number {
            9 => self.count_kind(case),
            10 => self.count_forms(case),
            _ => {}
        }
    }

    fn count_kind(&mut self, case: &SagCase) {
        let cells = Paper::read_row(case.row()).expect("the row reads before its kind is refused");
        let kind = cell(&cells, KIND).unwrap_or(0);
        let joint = cell(&cells, FIRST_OF_JOINT).is_some();
        let state = State::of(case.sag());
        *self.kinds.entry((kind, joint, state)).or_default() += 1;
    }

    fn count_forms(&mut self, case: &SagCase) {
        let Some(place) = only_wrong_cell(case.sag()) else {
            return;
        };
        let part = &case.sag()[9 * place..9 * place + 9];
        let float = f64::from_le_bytes(part[1..].try_into().expect("eight bytes"));
        for ((_, is), count) in FORMS.iter().zip(&mut self.forms[place]) {
            *count += u64::from(is(part[0], float, &ranges()[place]));
        }
    }

    pub fn print(&self) {
        println!("\nrefusal, cell: sags");
        for (refusal, sags) in &self.refusals {
            println!("{}, {}: {sags}", refusal.number, refusal.cell);
        }
        println!("\nrefusal, state of the sag, whether the answer has its length: sags");
        for ((number, state, fits), sags) in &self.told {
            println!("{number}, {state:?}, {fits}: {sags}");
        }
        println!("\nrefused by 9, kind, joint, state of the sag: sags");
        for ((kind, joint, state), sags) in &self.kinds {
            println!("{kind}, {joint}, {state:?}: {sags}");
        }
        println!("\nrefused by 10, one cell wrong: sags with L, Mn, n");
        for (form, (name, _)) in FORMS.iter().enumerate() {
            println!("{name}: {:?}", self.forms.map(|counts| counts[form]));
        }
    }

    /// Holds every refusal to have occurred often enough, and none that cannot.
    pub fn assert_every_sort(&self) {
        let mut every_refusal = of_checking();
        every_refusal.extend(refusals(9, [1]));
        every_refusal.extend(refusals(10, [0]));
        assert_occurred(
            "sags with",
            &self.refusals,
            &every_refusal,
            LEAST_OF_REFUSAL,
        );
        assert_occurred("sags told", &self.told, &every_told(), LEAST_IN_STATE);
        assert_occurred(
            "rows of kind",
            &self.kinds,
            &every_other_kind(),
            LEAST_OF_KIND,
        );
        for (place, counts) in self.forms.iter().enumerate() {
            for ((name, _), &sags) in FORMS.iter().zip(counts) {
                assert!(
                    sags >= LEAST_OF_FORM,
                    "only {sags} sags with cell {place} {name}"
                );
            }
        }
    }
}
