//! The program `schedule` against the second implementation's text, and its stored input and output.
#[path = "common/programs.rs"]
mod programs;
#[path = "schedule/streams.rs"]
mod streams;

use lvl_addin::answer::Refusal;
use lvl_addin::row::CELLS;
use lvl_second::cells::LAST_OF_JOINT;
use lvl_second::rows::inputs;
use lvl_second::rows::judged;
use lvl_second::rows::random::Random;
use lvl_second::{Paper, Rules, INPUT_BYTES};
use programs::{assert_stored, crate_folder, run_in_pieces};
use std::collections::BTreeSet;
use std::path::PathBuf;
use std::time::Duration;

/// What document 01 gives for the bytes 00 00 00 80.
const OF_THE_PAPER: &str = "1 refused 2 1\n2 refused 6 1\n";

/// What the program says on standard error of an input that is longer than it takes in.
const INPUT_CUT: &str = "schedule: the input is longer than 65,536 bytes: the rest is ignored\n";

fn program_path() -> PathBuf {
    programs::program_path("schedule")
}

/// What the program prints for an input that is written in pieces of this length, with a pause after each. On standard error it
/// says that an input is longer than it takes in, and nothing else.
fn printed_in_pieces(input: &[u8], length: usize, pause: Duration) -> String {
    let ended = run_in_pieces("schedule", input, length, pause);
    assert!(ended.status.success());
    let said = String::from_utf8(ended.stderr).expect("the program says text");
    let is_cut = input.len() > INPUT_BYTES;
    assert_eq!(said, if is_cut { INPUT_CUT } else { "" });
    String::from_utf8(ended.stdout).expect("the program prints text")
}

/// What the program prints for an input.
fn printed(input: &[u8]) -> String {
    printed_in_pieces(input, input.len().max(1), Duration::ZERO)
}

fn assert_printed(input: &[u8]) {
    assert_eq!(printed(input), Paper::schedule(input), "{input:02x?}");
}

/// The last line's refusal, if it is one.
fn last_refusal(text: &str) -> Option<Refusal> {
    let mut fields = text.lines().last()?.split(' ').skip(1);
    (fields.next()? == "refused").then_some(())?;
    Some(Refusal {
        number: fields.next()?.parse().ok()?,
        cell: fields.next()?.parse().ok()?,
    })
}

#[test]
fn the_stored_files_are_up_to_date() {
    let input = inputs::stored();
    assert_stored("schedule", &input, &Paper::schedule(&input));
}

/// Of worked rows E and F, of E at its shortest, and of this with the force for 21 dowels and with one newton more.
const OF_ROWS_E_AND_F: &str =
    "\n601 pass 5 342176 20\n602 fail 4 0 20\n603 pass 5 342176 20\n604 pass 5 360999 21\n605 fail 4 0 22\n";

/// The stored input shows the verdicts of every check and the refusals, but for 7, which would stop it early.
#[test]
fn the_stored_input_is_worth_storing() {
    let input = inputs::stored();
    assert!(input.len() <= INPUT_BYTES);
    let text = Paper::schedule(&input);
    assert!(text.contains(OF_ROWS_E_AND_F));
    let shown: BTreeSet<String> = text
        .lines()
        .filter_map(|line| line.split_once(' '))
        .map(|(_, rest)| rest.split(' ').take(2).collect::<Vec<_>>().join(" "))
        .collect();
    for fails in 1..=11 {
        assert!(
            shown.contains(&format!("fail {fails}")),
            "no fail on check {fails}"
        );
    }
    for passes in 5..=11 {
        assert!(
            shown.contains(&format!("pass {passes}")),
            "no pass on check {passes}"
        );
    }
    for refused in [2, 3, 4, 6] {
        assert!(
            shown.contains(&format!("refused {refused}")),
            "no refusal {refused}"
        );
    }
    assert_eq!(
        last_refusal(&text),
        Some(Refusal {
            number: 6,
            cell: LAST_OF_JOINT as u32
        })
    );
}

#[test]
fn the_stored_input_prints_the_stored_output() {
    let stored =
        |name| std::fs::read(crate_folder("schedule").join(name)).expect("the file is stored");
    assert_eq!(printed(&stored("stdin")).as_bytes(), stored("stdout"));
}

#[test]
fn nothing_prints_nothing() {
    assert_eq!(printed(&[]), "");
}

#[test]
fn the_example_bytes_print_the_example_lines() {
    let input = [0x00, 0x00, 0x00, 0x80];
    assert_eq!(Paper::schedule(&input), OF_THE_PAPER);
    assert_eq!(printed(&input), OF_THE_PAPER);
}

/// A row with padding bits, as few of its cells filled as that takes, and how many such bits it has.
fn padded_row() -> (Vec<u8>, usize) {
    let bits = |filled: usize| CELLS + 34 * filled;
    let filled = (0..CELLS).find(|&filled| bits(filled) % 8 != 0);
    let filled = filled.expect("34 is no multiple of 8");
    let mut cells = [None; CELLS];
    cells[..filled].fill(Some(1));
    let mut row = Vec::new();
    inputs::append(&cells, &mut row);
    let padding = 8 * row.len() - bits(filled);
    (row, padding)
}

#[test]
fn a_set_padding_bit_stops_the_program() {
    let (row, padding) = padded_row();
    let with_bit = |bit: usize, after: usize| {
        let mut input = row.clone();
        *input.last_mut().expect("a row has bytes") |= 1 << bit;
        input.resize(row.len() + after, 0);
        input
    };
    for bit in 0..padding {
        assert_eq!(printed(&with_bit(bit, 3)), "1 refused 7 0\n");
    }
    // The lowest bit that still belongs to the last cell.
    assert_printed(&with_bit(padding, 4));
}

/// A full row cut off after each of its bytes names every cell in turn.
#[test]
fn a_row_cut_off_anywhere_names_the_lowest_cell_cut() {
    let mut whole = Vec::new();
    inputs::append(&[Some(1); CELLS], &mut whole);
    let mut named = BTreeSet::new();
    for length in 1..whole.len() {
        let text = printed(&whole[..length]);
        assert_eq!(text, Paper::schedule(&whole[..length]));
        let refusal = last_refusal(&text).expect("a cut row is refused");
        assert_eq!(refusal.number, 6);
        named.insert(refusal.cell);
    }
    assert_eq!(named, (1..=CELLS as u32).collect());
}

#[test]
fn what_exceeds_the_limit_is_ignored() {
    let mut random = Random::new(65_536);
    let ends_between_rows = inputs::long(&mut random, 0);
    assert!(ends_between_rows.len() > INPUT_BYTES);
    assert!(Paper::unpack(&ends_between_rows[INPUT_BYTES..]).is_ok());
    let text = printed(&ends_between_rows);
    assert_eq!(text, Paper::schedule(&ends_between_rows[..INPUT_BYTES]));
    assert_eq!(text, Paper::schedule(&ends_between_rows));
    assert!(last_refusal(&text).is_none_or(|refusal| refusal.number != 6));
    assert_eq!(printed(&ends_between_rows[..INPUT_BYTES]), text);
    for beyond in [1, 2] {
        let cut_by_the_limit = inputs::long(&mut random, beyond);
        let text = printed(&cut_by_the_limit);
        assert_eq!(text, Paper::schedule(&cut_by_the_limit));
        assert_eq!(last_refusal(&text).map(|refusal| refusal.number), Some(6));
    }
}

/// The byte at the limit is the last that is taken in, and the first beyond it the first that the program speaks of.
#[test]
fn the_limit_is_met_to_the_byte() {
    let blanks = vec![0; INPUT_BYTES + 1];
    let at_the_limit = printed(&blanks[..INPUT_BYTES]);
    assert_eq!(at_the_limit, Paper::schedule(&blanks[..INPUT_BYTES]));
    assert_eq!(printed(&blanks), at_the_limit);
    assert_printed(&blanks[..INPUT_BYTES - 1]);
}

#[test]
fn an_input_far_beyond_the_limit_ends() {
    let mut random = Random::new(3);
    let mut input = inputs::long(&mut random, 0);
    input.resize(1_000_000, 0);
    assert_printed(&input);
}

#[test]
fn an_input_in_slow_pieces_prints_the_same() {
    let mut random = Random::new(11);
    let mut input = Vec::new();
    for kind in [1, 2, 3, 4, 5] {
        inputs::append(&judged::row(&mut random, kind, kind == 1), &mut input);
    }
    input.pop();
    let expected = Paper::schedule(&input);
    assert_eq!(
        printed_in_pieces(&input, 1, Duration::from_millis(2)),
        expected
    );
    assert_eq!(
        printed_in_pieces(&input, 7, Duration::from_millis(5)),
        expected
    );
    let long = inputs::long(&mut random, 1);
    assert_eq!(
        printed_in_pieces(&long, 1000, Duration::from_millis(2)),
        Paper::schedule(&long)
    );
}

#[test]
fn any_inputs_print_the_second_implementations_text() {
    let mut random = Random::new(200);
    for _ in 0..200 {
        assert_printed(&inputs::any(&mut random));
    }
}
