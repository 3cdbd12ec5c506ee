//! How fast the add-in's entries are beside the second implementation, on the same rows, floor beams and sags in the
//! same run.
//!
//! `bench` prints rows per second and their ratio. `bench once WHO WHAT MIX ROWS` only runs, for a tool that counts
//! instructions; a run of 0 rows gives what is to be taken off. WHO is `entry` or `second`, WHAT `check`, `strengths`,
//! `pack`, `floor` or `sag`, and MIX a name of the table without its spaces.
mod mixes;

use lvl_addin::entry;
use lvl_addin::floor_beam::BEAM_ANSWER_BYTES;
use lvl_addin::row::{ANSWER_BYTES, PACKED_BYTES, ROW_BYTES};
use lvl_addin::sag::SAG_ANSWER_BYTES;
use lvl_addin::strengths::STRENGTHS_BYTES;
use mixes::{Mix, ROWS};
use std::hint::black_box;
use std::time::{Duration, Instant};

/// How often each is timed, in turns, and for how long at a time. The best time counts.
const REPEATS: usize = 9;
const TURN: Duration = Duration::from_millis(20);

type Entry = fn(&[u8], &mut [u8]) -> u64;

/// An operation in both implementations.
struct Operation {
    name: &'static str,
    lent: usize,
    entry: Entry,
    second: Entry,
}

/// The operations on rows.
const OPERATIONS: [Operation; 3] = [
    Operation {
        name: "check",
        lent: ANSWER_BYTES,
        entry: entry::check_bytes,
        second: lvl_second::check_bytes,
    },
    Operation {
        name: "strengths",
        lent: STRENGTHS_BYTES,
        entry: entry::strengths_bytes,
        second: lvl_second::strengths_bytes,
    },
    Operation {
        name: "pack",
        lent: PACKED_BYTES,
        entry: entry::pack_bytes,
        second: lvl_second::pack_bytes,
    },
];

/// The operation on floor beams.
const FLOOR: Operation = Operation {
    name: "floor",
    lent: BEAM_ANSWER_BYTES,
    entry: entry::check_floor_beam_bytes,
    second: lvl_second::check_floor_beam_bytes,
};

/// The operation on sags, each with its row.
const SAG: Operation = Operation {
    name: "sag",
    lent: SAG_ANSWER_BYTES,
    entry: |given, answer| {
        let (row, sag) = given.split_at(ROW_BYTES);
        entry::check_sag_bytes(row, sag, answer)
    },
    second: |given, answer| {
        let (row, sag) = given.split_at(ROW_BYTES);
        lvl_second::check_sag_bytes(row, sag, answer)
    },
};

/// Calls an entry on every row once.
fn pass<const BYTES: usize>(entry: Entry, rows: &[[u8; BYTES]], lent: &mut [u8]) {
    for row in rows {
        black_box(entry(black_box(row), black_box(&mut *lent)));
    }
}

/// Rows per second over one turn.
fn speed<const BYTES: usize>(entry: Entry, rows: &[[u8; BYTES]], lent: &mut [u8]) -> f64 {
    let start = Instant::now();
    let mut passes = 0;
    while start.elapsed() < TURN {
        pass(entry, rows, lent);
        passes += 1;
    }
    (passes * rows.len()) as f64 / start.elapsed().as_secs_f64()
}

/// The best speeds of an operation in both implementations, taken in turns so that both meet the same disturbances.
fn best_speeds<const BYTES: usize>(operation: &Operation, rows: &[[u8; BYTES]]) -> (f64, f64) {
    let mut lent = vec![0; operation.lent];
    let mut best: (f64, f64) = (0.0, 0.0);
    for _ in 0..REPEATS {
        best.0 = best.0.max(speed(operation.entry, rows, &mut lent));
        best.1 = best.1.max(speed(operation.second, rows, &mut lent));
    }
    best
}

fn print_table() {
    println!("rows per second, best of {REPEATS}; ratio: the entry's time over the second implementation's");
    println!(
        "{:>9}  {:<14}{:>14}{:>14}{:>8}",
        "", "rows", "entry", "second", "ratio"
    );
    for operation in &OPERATIONS {
        print_lines(operation, &mixes::of_rows());
    }
    print_lines(&FLOOR, &mixes::of_beams());
    print_lines(&SAG, &mixes::of_sags());
}

fn print_lines<const BYTES: usize>(operation: &Operation, mixes: &[Mix<BYTES>]) {
    for mix in mixes {
        let (entry, second) = best_speeds(operation, &mix.rows);
        let ratio = second / entry;
        println!(
            "{:>9}  {:<14}{entry:>14.0}{second:>14.0}{ratio:>8.2}",
            operation.name, mix.name
        );
    }
}

/// Runs one implementation of one operation on so many rows of a mix; none if a name is not known.
fn run_once(who: &str, what: &str, mix: &str, rows: &str) -> Option<()> {
    let rows = rows.parse().ok()?;
    if what == FLOOR.name {
        return run_mix(&FLOOR, who, &mixes::of_beams(), mix, rows);
    }
    if what == SAG.name {
        return run_mix(&SAG, who, &mixes::of_sags(), mix, rows);
    }
    let operation = OPERATIONS.iter().find(|operation| operation.name == what)?;
    run_mix(operation, who, &mixes::of_rows(), mix, rows)
}

fn run_mix<const BYTES: usize>(
    operation: &Operation,
    who: &str,
    mixes: &[Mix<BYTES>],
    name: &str,
    rows: usize,
) -> Option<()> {
    let entry = match who {
        "entry" => operation.entry,
        "second" => operation.second,
        _ => return None,
    };
    let mix = mixes
        .iter()
        .find(|known| known.name.replace(' ', "") == name)?;
    let mut lent = vec![0; operation.lent];
    for _ in 0..rows / ROWS {
        pass(entry, &mix.rows, &mut lent);
    }
    pass(entry, &mix.rows[..rows % ROWS], &mut lent);
    Some(())
}

fn main() {
    let arguments: Vec<String> = std::env::args().skip(1).collect();
    let arguments: Vec<&str> = arguments.iter().map(String::as_str).collect();
    match arguments[..] {
        [] => print_table(),
        ["once", who, what, mix, rows] if run_once(who, what, mix, rows).is_some() => {}
        _ => {
            eprintln!("usage: bench [once entry|second check|strengths|pack|floor|sag MIX ROWS]");
            std::process::exit(2);
        }
    }
}
