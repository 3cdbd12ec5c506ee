//! The stored input and output of the program.
use crate::program::ended;
use crate::programs::{assert_stored, crate_folder};
use lvl_second::calls::stored;
use lvl_second::replay::{call_bytes, CALL_BYTES};
use lvl_second::{KeptRules, Paper};

/// Rows A to D, F, G and E, and A once more, added to an empty schedule and removed. F and G rank alike.
const OF_WORKED_ROWS: &str = "\
refused 12 0 governing none
added 1 governing 1 pass 7 690668 0
added 2 governing 1 pass 7 690668 0
added 3 governing 1 pass 7 690668 0
added 4 governing 1 pass 7 690668 0
added 5 governing 5 fail 4 0 20
added 6 governing 5 fail 4 0 20
added 7 governing 5 fail 4 0 20
added 8 governing 5 fail 4 0 20
removed governing 6 fail 1 0 0
removed governing 1 pass 7 690668 0
removed governing 8 pass 7 690668 0
removed governing 7 pass 5 342176 20
refused 12 0 governing 7 pass 5 342176 20
removed governing 3 pass 10 319120 0
removed governing 4 pass 10 317141 0
removed governing 2 pass 10 315122 0
removed governing none
refused 2 1 governing none
refused 1 3 governing none
refused 3 3 governing none
refused 4 7 governing none
";

fn input() -> Vec<u8> {
    stored::calls().iter().flat_map(call_bytes).collect()
}

#[test]
fn the_stored_files_are_up_to_date() {
    assert_stored("replay", &input(), &Paper::replay(&stored::calls()));
}

/// It shows every sort of answer, and is small enough to be looked at.
#[test]
fn the_stored_input_is_worth_storing() {
    let bytes = input().len();
    assert!((12_000..=20_000).contains(&bytes), "{bytes} bytes");
    let text = Paper::replay(&stored::calls());
    assert_eq!(text.lines().count(), bytes / CALL_BYTES);
    assert!(text.starts_with(OF_WORKED_ROWS), "{text}");
    assert!(text.contains("\nadded 72 "), "{text}");
    for given in ["refused 11 0 ", "refused 12 0 ", "refused 4 7 ", "removed "] {
        let line = format!("\n{given}governing ");
        assert!(text.contains(&line), "{given}in a schedule that holds rows");
    }
}

#[test]
fn the_stored_input_prints_the_stored_output() {
    let stored =
        |name| std::fs::read(crate_folder("replay").join(name)).expect("the file is stored");
    let run = ended(&stored("stdin"));
    assert_eq!(run.printed.as_bytes(), stored("stdout"));
    assert!(run.status.success());
}
