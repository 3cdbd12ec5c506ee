//! The add-in's entries for checking and packing against the second implementation, on the generated rows.
//!
//! Every returned number and every lent byte must be equal, every verdict of the entry must keep demand 3, and every
//! class of row, verdict and refusal that can occur must have occurred often enough to mean something.
#[path = "common/both.rs"]
mod both;
#[path = "common/counts.rs"]
mod counts;
#[path = "common/row_refusals.rs"]
mod row_refusals;

use both::both;
use counts::{assert_lengths, assert_lent_lengths, assert_occurred, count_answer, AnswerLengths};
use lvl_addin::answer::Refusal;
use lvl_addin::entry;
use lvl_addin::row::ANSWER_BYTES;
use lvl_second::cells::{cell, FIRST_OF_JOINT, KIND};
use lvl_second::demand3;
use lvl_second::rows::{Case, Cases, LONGEST_ANSWER, LONGEST_ROW, LONGEST_SPACE};
use lvl_second::{Cells, Paper, Rules};
use row_refusals::{every_cell, of_checking, of_reading_and_answering, refusals};
use std::collections::BTreeMap;

/// The rows that are compared; two million are demanded.
const ROWS: u64 = 4_000_000;

/// The least number of rows in a class of verdicts.
const LEAST_IN_CLASS: u64 = 1000;

/// Whether a joint's dowels bend before a piece is crushed, and whether bending has the least term. A product of factors
/// below one takes more off crushing than off bending; one above, which regime 8 alone can give, adds more to it.
type Mode = (bool, bool);

const MODES: [Mode; 4] = [(false, false), (false, true), (true, false), (true, true)];

/// The least number of joints of a mode; those where bending has the greater term and yet governs are few.
const LEAST_OF_MODE: u64 = 100;

/// The least number of rows, answers and buffers of each length.
const LEAST_OF_LENGTH: u64 = 100;

/// A kind, whether it has a joint, the check that is named, and whether the row passes.
type Class = (u64, bool, u32, bool);

/// Every class that can occur.
///
/// A yes-or-no check is named only where it fails. Without a joint there are no checks 1, 4 and 6. All the strength
/// checks of a kind can be named, both ways; only check 9 in kind 4 takes thought. It passes as the named one where
/// the moment is small. Where it fails at a slenderness above 70, φ and φ' are the same, so that p is above one,
/// check 11 is at the cap, and check 9 is named only if it is at the cap too. Up to slenderness 70, φ is below φ'
/// (0.00096 x² − x + 250 is positive for x = L²/s² up to 416), so that check 9 fails while p is below one.
#[rustfmt::skip]
const CLASSES: [Class; 38] = [
    (1, false, 2, false), (1, false, 3, false),
    (1, false, 5, true), (1, false, 5, false),
    (1, true, 1, false), (1, true, 2, false), (1, true, 3, false), (1, true, 4, false),
    (1, true, 5, true), (1, true, 5, false), (1, true, 6, true), (1, true, 6, false),
    (2, false, 7, true), (2, false, 7, false), (2, false, 8, true), (2, false, 8, false),
    (3, false, 2, false), (3, false, 3, false),
    (3, false, 9, true), (3, false, 9, false), (3, false, 10, true), (3, false, 10, false),
    (4, false, 2, false), (4, false, 3, false),
    (4, false, 8, true), (4, false, 8, false), (4, false, 9, true), (4, false, 9, false),
    (4, false, 10, true), (4, false, 10, false), (4, false, 11, true), (4, false, 11, false),
    (5, false, 2, false), (5, false, 3, false),
    (5, false, 8, true), (5, false, 8, false), (5, false, 11, true), (5, false, 11, false),
];

/// The operations that refuse.
#[derive(Clone, Copy, Debug, PartialEq, Eq, PartialOrd, Ord)]
enum Operation {
    Check,
    Pack,
    Unpack,
}

/// Every refusal that can occur. Packing's own refusal 4 cannot: what the host's row reads as fits 34 bits.
fn every_refusal() -> Vec<(Operation, Refusal)> {
    let of_unpacking = refusals(6, every_cell()).chain(refusals(7, [0])).collect();
    let lists = [
        (Operation::Check, of_checking()),
        (Operation::Pack, of_reading_and_answering()),
        (Operation::Unpack, of_unpacking),
    ];
    let by_operation =
        |(operation, list): (_, Vec<Refusal>)| list.into_iter().map(move |one| (operation, one));
    lists.into_iter().flat_map(by_operation).collect()
}

/// What has been seen.
#[derive(Default)]
struct Tally {
    rows: u64,
    judged: u64,
    classes: BTreeMap<Class, u64>,
    modes: BTreeMap<Mode, u64>,
    refusals: BTreeMap<(Operation, Refusal), u64>,
    row_lengths: BTreeMap<usize, u64>,
    answer_lengths: AnswerLengths,
    /// By length and whether the row reads.
    space_lengths: AnswerLengths,
}

impl Tally {
    fn refuse(&mut self, operation: Operation, refusal: Refusal) {
        *self.refusals.entry((operation, refusal)).or_default() += 1;
    }
}

fn compare(case: &Case, tally: &mut Tally) {
    let salt = tally.rows;
    tally.rows += 1;
    *tally.row_lengths.entry(case.row().len()).or_default() += 1;
    let cells = Paper::read_row(case.row());
    compare_check(case, cells, salt, tally);
    compare_pack(case, cells, salt, tally);
}

fn compare_check(case: &Case, cells: Result<Cells, Refusal>, salt: u64, tally: &mut Tally) {
    let (code, mut lent) = both(
        entry::check_bytes,
        lvl_second::check_bytes,
        case.row(),
        case.answer,
        salt,
    );
    let refusal = Refusal::from_code(code);
    count_answer(&mut tally.answer_lengths, case.answer, refusal);
    if let Some(refusal) = refusal {
        return tally.refuse(Operation::Check, refusal);
    }
    tally.judged += 1;
    let cells = cells.expect("a judged row reads");
    let answer: [u8; ANSWER_BYTES] = lent
        .part()
        .try_into()
        .expect("a judged row's answer is whole");
    let verdict = entry::verdict(code == 0, &answer);
    let class = (
        cell(&cells, KIND).unwrap_or(0),
        cell(&cells, FIRST_OF_JOINT).is_some(),
        verdict.check,
        verdict.passes,
    );
    *tally.classes.entry(class).or_default() += 1;
    if let Some(mode) = mode(&cells) {
        *tally.modes.entry(mode).or_default() += 1;
    }
    for thousandths in [1005, 1003] {
        if let Err(why) = demand3::keeps(&cells, &verdict, thousandths) {
            panic!("demand 3 at {thousandths}: {why}, {cells:?}, {verdict:?}");
        }
    }
}

/// How the dowels of a judged row give way.
fn mode(cells: &Cells) -> Option<Mode> {
    let member = Paper::accept(cells).ok()?;
    let joint = member.joint?;
    let [middle, side, dowel] = Paper::mode_capacities(&member, &joint);
    let crushing = Paper::middle_term(member.width, &joint).min(Paper::side_term(&joint));
    Some((
        dowel < middle.min(side),
        Paper::dowel_term(&joint) < crushing,
    ))
}

fn compare_pack(case: &Case, cells: Result<Cells, Refusal>, salt: u64, tally: &mut Tally) {
    let (code, mut lent) = both(
        entry::pack_bytes,
        lvl_second::pack_bytes,
        case.row(),
        case.space,
        salt,
    );
    *tally
        .space_lengths
        .entry((case.space, cells.is_ok()))
        .or_default() += 1;
    match Refusal::from_code(code) {
        Some(refusal) => tally.refuse(Operation::Pack, refusal),
        None => {
            let packed = &mut lent.part()[..code as usize];
            assert_eq!(
                Paper::unpack(packed),
                cells.map(|cells| (cells, packed.len())),
                "row {salt}"
            );
            unpack_spoilt(packed, &cells.expect("a packed row reads"), salt, tally);
        }
    }
}

/// Cuts a packed row off somewhere, and sets a padding bit if it has one.
fn unpack_spoilt(packed: &mut [u8], cells: &Cells, salt: u64, tally: &mut Tally) {
    let length = salt as usize % packed.len();
    let refusal = Paper::unpack(&packed[..length]).expect_err("a cut row does not unpack");
    let (cut, bits) = first_cell_cut(cells, 8 * length as u32);
    assert_eq!(
        refusal,
        Refusal {
            number: 6,
            cell: cut
        },
        "row {salt}"
    );
    tally.refuse(Operation::Unpack, refusal);
    if bits % 8 != 0 {
        *packed.last_mut().expect("a packed row has bytes") |= 1 << (salt as u32 % (8 - bits % 8));
        let refusal = Paper::unpack(packed).expect_err("a set padding bit does not unpack");
        assert_eq!(refusal, Refusal { number: 7, cell: 0 }, "row {salt}");
        tally.refuse(Operation::Unpack, refusal);
    }
}

/// The lowest cell that so many bits do not hold, and the bits of the whole row.
fn first_cell_cut(cells: &Cells, held: u32) -> (u32, u32) {
    let mut end = 0;
    let mut cut = 0;
    for (number, cell) in (1..).zip(cells) {
        end += if cell.is_some() { 35 } else { 1 };
        if end > held && cut == 0 {
            cut = number;
        }
    }
    (cut, end)
}

fn print(tally: &Tally) {
    println!(
        "{} rows compared, {} of them judged; demand 3 held to 1.005 and 1.003 on every one judged",
        tally.rows, tally.judged
    );
    println!("\nkind  joint  check  verdict     rows");
    for (&(kind, joint, check, passes), rows) in &tally.classes {
        let joint = if joint { "yes" } else { "no" };
        let verdict = if passes { "pass" } else { "fail" };
        println!("{kind:>4}  {joint:>5}  {check:>5}  {verdict:>7}  {rows:>7}");
    }
    println!("\ndowels bend  bending has the least term  joints");
    for ((bends, least), joints) in &tally.modes {
        println!("{bends:>11}  {least:>26}  {joints:>6}");
    }
    println!("\noperation  refusal  cell: rows");
    let mut line = None;
    for (&(operation, refusal), rows) in &tally.refusals {
        if line != Some((operation, refusal.number)) {
            line = Some((operation, refusal.number));
            print!("\n{operation:?} {}  ", refusal.number);
        }
        print!("{}: {rows}  ", refusal.cell);
    }
    println!();
}

/// Holds the classes, modes and refusals that have occurred to those that can.
fn assert_classes(tally: &Tally) {
    assert_occurred("rows in class", &tally.classes, &CLASSES, LEAST_IN_CLASS);
    assert_occurred("joints of mode", &tally.modes, &MODES, LEAST_OF_MODE);
    assert_occurred("rows with", &tally.refusals, &every_refusal(), 1);
}

/// Holds every length to have occurred often enough.
fn assert_every_length(tally: &Tally) {
    assert_lengths("rows", LONGEST_ROW, LEAST_OF_LENGTH, |length| {
        tally.row_lengths.get(&length).copied()
    });
    let assert_lent = |what, lengths, longest| {
        assert_lent_lengths(what, lengths, longest, LEAST_OF_LENGTH);
    };
    assert_lent("answers", &tally.answer_lengths, LONGEST_ANSWER);
    assert_lent("buffers", &tally.space_lengths, LONGEST_SPACE);
}

#[test]
fn the_entries_and_the_second_implementation_agree() {
    let mut tally = Tally::default();
    for case in Cases::new().take(ROWS as usize) {
        compare(&case, &mut tally);
    }
    print(&tally);
    assert!(tally.rows >= 2_000_000);
    assert_classes(&tally);
    assert_every_length(&tally);
}

/// Slices that point nowhere are as good as any without bytes.
#[test]
fn the_entries_take_empty_slices() {
    assert_eq!(entry::check_bytes(&[], &mut []), 1000);
    assert_eq!(entry::pack_bytes(&[], &mut []), 1000);
}
