//! What the wrong copies are held against: the entries' answers to the generated rows, beams and sags, the texts of inputs,
//! and the lines of calls.
use lvl_addin::entry;
use lvl_second::beams::{self, BeamCase, BeamCases};
use lvl_second::calls::spending::Spending;
use lvl_second::calls::Lists;
use lvl_second::kept::LAST_NUMBER;
use lvl_second::rows::inputs;
use lvl_second::rows::random::Random;
use lvl_second::rows::{strength_answers, Case, Cases, LONGEST_ANSWER, LONGEST_SPACE};
use lvl_second::sags::{self, SagCase, SagCases};
use lvl_second::{Call, FloorRules, Kept, KeptRules, Paper, Rules, SagRules, StrengthRules};

/// The rows, the floor beams and the sags, from the beginnings of their sequences.
const ROWS: usize = 150_000;
const BEAMS: usize = 60_000;
const SAGS: usize = 150_000;

/// The short inputs of `schedule`.
const INPUTS: usize = 300;

/// The lists of calls, from the beginning of their sequence.
const LISTS: usize = 60;

/// What the lent bytes hold before a call.
const BEFORE: u8 = 0xA5;

/// A returned number, and the lent bytes after the call.
type Returned<const LENGTH: usize> = (u64, [u8; LENGTH]);

struct Answered {
    case: Case,
    checked: Returned<LONGEST_ANSWER>,
    packed: Returned<LONGEST_SPACE>,
    /// How many bytes are lent for the strengths.
    strengths_lent: usize,
    strengths: Returned<{ strength_answers::LONGEST }>,
}

struct AnsweredBeam {
    case: BeamCase,
    checked: Returned<{ beams::LONGEST_ANSWER }>,
}

struct AnsweredSag {
    case: SagCase,
    checked: Returned<{ sags::LONGEST_ANSWER }>,
}

/// Calls from an empty schedule, each with its line.
type AnsweredCalls = Vec<(Call, String)>;

/// The right answers.
pub struct Evidence {
    rows: Vec<Answered>,
    beams: Vec<AnsweredBeam>,
    sags: Vec<AnsweredSag>,
    inputs: Vec<(Vec<u8>, String)>,
    lists: Vec<AnsweredCalls>,
}

impl Evidence {
    pub fn gather() -> Evidence {
        let answer = |(case, strengths_lent): (Case, usize)| Answered {
            checked: call(entry::check_bytes, case.row(), case.answer),
            packed: call(entry::pack_bytes, case.row(), case.space),
            strengths: call(entry::strengths_bytes, case.row(), strengths_lent),
            strengths_lent,
            case,
        };
        let answer_beam = |case: BeamCase| AnsweredBeam {
            checked: call(entry::check_floor_beam_bytes, case.beam(), case.answer),
            case,
        };
        let answer_sag = |case: SagCase| AnsweredSag {
            checked: call_with_sag(entry::check_sag_bytes, &case),
            case,
        };
        let rows = Cases::new().zip(strength_answers::lengths()).take(ROWS);
        let mut random = Random::new(7);
        let mut inputs: Vec<Vec<u8>> = (0..INPUTS).map(|_| inputs::any(&mut random)).collect();
        inputs.extend((0..3).map(|beyond| inputs::long(&mut random, beyond)));
        Evidence {
            rows: rows.map(answer).collect(),
            beams: BeamCases::new().take(BEAMS).map(answer_beam).collect(),
            sags: SagCases::new().take(SAGS).map(answer_sag).collect(),
            inputs: inputs
                .into_iter()
                .map(|input| (input.clone(), Paper::schedule(&input)))
                .collect(),
            lists: Lists::new().take(LISTS).map(answered_calls).collect(),
        }
    }
}

fn answered_calls(calls: Vec<Call>) -> AnsweredCalls {
    let mut kept = Paper::empty_schedule();
    let answer = |call| (call, next_line::<Paper>(&mut kept, &call));
    calls.into_iter().map(answer).collect()
}

/// The line of a call.
fn next_line<R: KeptRules>(kept: &mut Kept, call: &Call) -> String {
    R::answer_line(&R::answer_call(kept, call))
}

fn call<const LENGTH: usize>(
    entry: fn(&[u8], &mut [u8]) -> u64,
    given: &[u8],
    lent: usize,
) -> Returned<LENGTH> {
    let mut bytes = [BEFORE; LENGTH];
    let code = entry(given, &mut bytes[..lent]);
    (code, bytes)
}

fn call_with_sag(
    entry: fn(&[u8], &[u8], &mut [u8]) -> u64,
    case: &SagCase,
) -> Returned<{ sags::LONGEST_ANSWER }> {
    let mut bytes = [BEFORE; sags::LONGEST_ANSWER];
    let code = entry(case.row(), case.sag(), &mut bytes[..case.answer]);
    (code, bytes)
}

/// The rules of document 01 and of every request: what a copy needs to be held against any of the answers.
pub trait EveryRule: FloorRules + StrengthRules + SagRules + KeptRules + 'static {}

impl<R: FloorRules + StrengthRules + SagRules + KeptRules + 'static> EveryRule for R {}

/// An entry, or the program, that may show a copy to be wrong.
pub trait Shows: 'static {
    /// Whether a copy differs from it.
    fn shows<R: EveryRule>(evidence: &Evidence) -> bool;
}

pub struct Checking;
impl Shows for Checking {
    fn shows<R: EveryRule>(evidence: &Evidence) -> bool {
        let differs =
            |row: &Answered| call(R::check_bytes, row.case.row(), row.case.answer) != row.checked;
        evidence.rows.iter().any(differs)
    }
}

pub struct Packing;
impl Shows for Packing {
    fn shows<R: EveryRule>(evidence: &Evidence) -> bool {
        let differs =
            |row: &Answered| call(R::pack_bytes, row.case.row(), row.case.space) != row.packed;
        evidence.rows.iter().any(differs)
    }
}

pub struct GivingStrengths;
impl Shows for GivingStrengths {
    fn shows<R: EveryRule>(evidence: &Evidence) -> bool {
        let differs = |row: &Answered| {
            call(R::strengths_bytes, row.case.row(), row.strengths_lent) != row.strengths
        };
        evidence.rows.iter().any(differs)
    }
}

pub struct Flooring;
impl Shows for Flooring {
    fn shows<R: EveryRule>(evidence: &Evidence) -> bool {
        let differs = |beam: &AnsweredBeam| {
            call(R::check_beam_bytes, beam.case.beam(), beam.case.answer) != beam.checked
        };
        evidence.beams.iter().any(differs)
    }
}

pub struct Sagging;
impl Shows for Sagging {
    fn shows<R: EveryRule>(evidence: &Evidence) -> bool {
        let differs =
            |sag: &AnsweredSag| call_with_sag(R::check_sag_bytes, &sag.case) != sag.checked;
        evidence.sags.iter().any(differs)
    }
}

/// By the text of some input.
pub struct Scheduling;
impl Shows for Scheduling {
    fn shows<R: EveryRule>(evidence: &Evidence) -> bool {
        let differs = |(input, text): &(Vec<u8>, String)| R::schedule(input) != *text;
        evidence.inputs.iter().any(differs)
    }
}

/// By the line of some call.
pub struct Keeping;
impl Shows for Keeping {
    fn shows<R: EveryRule>(evidence: &Evidence) -> bool {
        let differs = |calls: &AnsweredCalls| {
            let mut kept = R::empty_schedule();
            let mut answers = calls.iter();
            answers.any(|(call, line)| next_line::<R>(&mut kept, call) != *line)
        };
        evidence.lists.iter().any(differs)
    }
}

/// By some call of the list that spends the numbers. The answers are made anew: they are too many to keep. Long before the
/// last number, what governs is left aside, which `Keeping` shows.
pub struct SpendingNumbers;
impl Shows for SpendingNumbers {
    fn shows<R: EveryRule>(_evidence: &Evidence) -> bool {
        let mut right = Paper::empty_schedule();
        let mut kept = R::empty_schedule();
        Spending::new().any(|call| {
            if right.next < LAST_NUMBER - 1000 {
                R::carry_out(&mut kept, &call) != Paper::carry_out(&mut right, &call)
            } else {
                next_line::<R>(&mut kept, &call) != next_line::<Paper>(&mut right, &call)
            }
        })
    }
}

/// A wrong copy: what it does wrong, and whether that is seen.
pub struct Wrong {
    pub name: String,
    pub seen: Box<dyn Fn(&Evidence) -> bool>,
}

impl Wrong {
    pub fn new(name: impl Into<String>, seen: impl Fn(&Evidence) -> bool + 'static) -> Wrong {
        Wrong {
            name: name.into(),
            seen: Box::new(seen),
        }
    }
}

/// Lists copies that an entry has to show, declared elsewhere.
macro_rules! shown_by {
    ($entry:ident: $($copy:path),* $(,)?) => {
        vec![$(crate::evidence::Wrong::new(
            stringify!($copy),
            <crate::evidence::$entry as crate::evidence::Shows>::shows::<$copy>,
        )),*]
    };
}

/// Declares wrong copies and lists them: whose rules they change and the entry that has to show them, then each copy's
/// name and the one rule it changes.
macro_rules! wrong_copies {
    (Rules, $($copies:tt)*) => {
        declare_copies! { Rules [FloorRules StrengthRules SagRules KeptRules], $($copies)* }
    };
    (FloorRules, $($copies:tt)*) => {
        declare_copies! { FloorRules [Rules StrengthRules SagRules KeptRules], $($copies)* }
    };
    (StrengthRules, $($copies:tt)*) => {
        declare_copies! { StrengthRules [Rules FloorRules SagRules KeptRules], $($copies)* }
    };
    (SagRules, $($copies:tt)*) => {
        declare_copies! { SagRules [Rules FloorRules StrengthRules KeptRules], $($copies)* }
    };
    (KeptRules, $($copies:tt)*) => {
        declare_copies! { KeptRules by_the_paper, $($copies)* }
    };
}

/// Lets a copy keep all of these rules. A copy of the kept schedule's has the row check of `Paper` itself: with one of its
/// own each would take as long to build as a copy of the row's rules.
macro_rules! keep_rules {
    ($copy:ident [$($kept:ident)*]) => {
        $(impl lvl_second::$kept for $copy {})*
    };
    ($copy:ident by_the_paper) => {
        impl lvl_second::Rules for $copy {
            fn read_row(row: &[u8]) -> Result<lvl_second::Cells, lvl_addin::answer::Refusal> {
                lvl_second::Paper::read_row(row)
            }

            fn accept(
                cells: &lvl_second::Cells,
            ) -> Result<lvl_second::Member, lvl_addin::answer::Refusal> {
                lvl_second::Paper::accept(cells)
            }

            fn check_row(
                cells: &lvl_second::Cells,
            ) -> Result<lvl_addin::answer::Verdict, lvl_addin::answer::Refusal> {
                lvl_second::Paper::check_row(cells)
            }
        }
        keep_rules! { $copy [FloorRules StrengthRules SagRules] }
    };
}

macro_rules! declare_copies {
    (
        $changed:ident $kept:tt, $entry:ident:
        $($(#[$note:meta])* $name:ident { $($rule:tt)* })*
    ) => {
        $($(#[$note])* pub struct $name;
        impl lvl_second::$changed for $name { $($rule)* }
        keep_rules! { $name $kept })*

        pub fn copies() -> Vec<crate::evidence::Wrong> {
            copies_shown_by::<crate::evidence::$entry>()
        }

        /// The same copies, for an entry that has to show them by itself.
        pub fn copies_shown_by<E: crate::evidence::Shows>() -> Vec<crate::evidence::Wrong> {
            vec![$(crate::evidence::Wrong::new(stringify!($name), E::shows::<$name>)),*]
        }
    };
}
