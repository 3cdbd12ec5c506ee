//! One for each modulus, each regime, each end of a range and each cell of a sag, and each kind.
use super::{keep_all_but_the_sags, kind_code, moved, slip, SLIP};
use crate::evidence::{EveryRule, Sagging, Wrong};
use lvl_addin::answer::Refusal;
use lvl_addin::sag::SAG_CELLS;
use lvl_second::cells::{Grade, Kind};
use lvl_second::rows::judged::REGIMES;
use lvl_second::sag::{Sag, SagRead};
use lvl_second::{Paper, SagRules};
use std::ops::RangeInclusive;

/// The modulus of one grade.
struct Modulus;
impl SagRules for Modulus {
    fn modulus(grade: Grade) -> u64 {
        moved(Paper::modulus(grade), grade as u64, 0)
    }
}

/// e of one regime.
struct Duration;
impl SagRules for Duration {
    fn elastic_duration(code: u64) -> u64 {
        moved(Paper::elastic_duration(code), code, 0)
    }
}

/// e of one regime for that of another.
struct DurationConfused;
impl SagRules for DurationConfused {
    fn elastic_duration(code: u64) -> u64 {
        let (at, other, _) = SLIP.get();
        Paper::elastic_duration(if code == at { other } else { code })
    }
}

fn moved_ends(range: RangeInclusive<u64>, place: u64) -> RangeInclusive<u64> {
    moved(*range.start(), place, 0)..=moved(*range.end(), place, 1)
}

/// One end of the range of one cell.
struct RangeEnd;
impl SagRules for RangeEnd {
    fn sag_span_range() -> RangeInclusive<u64> {
        moved_ends(Paper::sag_span_range(), 0)
    }

    fn sag_moment_range() -> RangeInclusive<u64> {
        moved_ends(Paper::sag_moment_range(), 1)
    }

    fn sag_limit_range() -> RangeInclusive<u64> {
        moved_ends(Paper::sag_limit_range(), 2)
    }
}

/// Two cells in each other's places.
struct CellsExchanged;
impl SagRules for CellsExchanged {
    fn sag(read: &SagRead) -> Result<Sag, Refusal> {
        let (one, other, _) = SLIP.get();
        let mut read = *read;
        read.swap(one as usize, other as usize);
        Paper::sag(&read)
    }
}

/// One cell's refusal that names the cell, by its place from a first number.
struct CellNamed;
impl SagRules for CellNamed {
    fn sag(read: &SagRead) -> Result<Sag, Refusal> {
        let (place, from, _) = SLIP.get();
        let named = Refusal {
            cell: (from + place) as u32,
            ..Paper::sag_refusal()
        };
        Paper::sag(read).map_err(|found| {
            if in_range(read[place as usize], place) {
                found
            } else {
                named
            }
        })
    }
}

/// Whether a cell of a sag is what its place may hold.
fn in_range(read: Option<Option<u64>>, place: u64) -> bool {
    let range = match place {
        0 => Paper::sag_span_range(),
        1 => Paper::sag_moment_range(),
        _ => Paper::sag_limit_range(),
    };
    Paper::sag_cell(read).is_some_and(|number| range.contains(&number))
}

/// One kind that has a sag and must not, or the reverse.
struct KindTurned;
impl SagRules for KindTurned {
    fn has_sag(kind: Kind) -> bool {
        Paper::has_sag(kind) != (kind_code(kind) == SLIP.get().0)
    }
}

keep_all_but_the_sags!(
    Modulus,
    Duration,
    DurationConfused,
    RangeEnd,
    CellsExchanged,
    CellNamed,
    KindTurned,
);

pub fn copies() -> Vec<Wrong> {
    let mut copies = figures();
    copies.extend(cells());
    copies.extend(kinds());
    copies
}

fn own<R: EveryRule>(name: String, at: u64, and: u64, by: i64) -> Wrong {
    slip::<Sagging, R>(name, at, and, by)
}

fn figures() -> Vec<Wrong> {
    let mut copies = Vec::new();
    for by in [-1, 1] {
        for grade in [Grade::K45, Grade::K40, Grade::K35] {
            let name = format!("modulus of {grade:?} moved by {by}");
            copies.push(own::<Modulus>(name, grade as u64, 0, by));
        }
        for code in REGIMES {
            let name = format!("e of code {code} moved by {by}");
            copies.push(own::<Duration>(name, code, 0, by));
        }
    }
    for (code, other) in two_of(&REGIMES) {
        if Paper::elastic_duration(code) != Paper::elastic_duration(other) {
            let name = format!("e of code {other} for that of code {code}");
            copies.push(own::<DurationConfused>(name, code, other, 0));
        }
    }
    copies
}

/// Every two of these, either way round.
fn two_of(all: &[u64]) -> impl Iterator<Item = (u64, u64)> + '_ {
    all.iter().flat_map(move |&one| {
        all.iter()
            .filter(move |&&other| other != one)
            .map(move |&other| (one, other))
    })
}

const PLACES: [&str; SAG_CELLS] = ["L", "Mn", "n"];

fn cells() -> Vec<Wrong> {
    let mut copies = Vec::new();
    for (place, name) in (0..).zip(PLACES) {
        for by in [-1, 1] {
            for (end, what) in [(0, "least"), (1, "greatest")] {
                let name = format!("{what} {name} moved by {by}");
                copies.push(own::<RangeEnd>(name, place, end, by));
            }
        }
        for from in [1, 23] {
            let name = format!("{name} named, the first as cell {from}");
            copies.push(own::<CellNamed>(name, place, from, 0));
        }
    }
    for (one, other) in [(0, 1), (0, 2), (1, 2)] {
        let name = format!("cells {one} and {other} exchanged");
        copies.push(own::<CellsExchanged>(name, one, other, 0));
    }
    copies
}

fn kinds() -> Vec<Wrong> {
    let copy = |kind| own::<KindTurned>(format!("kind {kind} turned"), kind, 0, 0);
    (1..=5).map(copy).collect()
}
