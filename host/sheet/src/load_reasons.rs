//! A floor beam's own refusals in words: which of its loads, their total or its span is to blame for refusal 8, and which of
//! span, unfactored moment and limit for refusal 10, which is of the sag alone.
//!
//! The add-in names none of them. What stands here looks for one that explains the refusal; it decides nothing.
use crate::floor_beams::{total_load, LIMIT, LOADS, SPAN, UNFACTORED_MOMENT};
use crate::number::Typed;
use crate::reasons::{range, shown_cell, unreadable};
use crate::row::SheetRow;
use crate::words::{self, CellWords};
use lvl_addin::answer::Refusal;
use std::ops::RangeInclusive;

const TOTAL_LOADS: RangeInclusive<u64> = 100..=100_000;
const SPANS: RangeInclusive<u64> = 500..=20_000;
const UNFACTORED_MOMENTS: RangeInclusive<u64> = 1..=10_000_000_000;
const LIMITS: RangeInclusive<u64> = 100..=500;

/// "refusal 8, span: 25000 is outside 500 to 20000 mm".
pub fn reason(refusal: Refusal, row: &SheetRow) -> String {
    let (blamed, any) = match refusal.number {
        8 => (of_loads(row), "a load, the total load or the span"),
        10 => (of_sag(row), "the span, the unfactored moment or the limit"),
        number => return format!("refusal {number} of the whole beam"),
    };
    match blamed {
        Some(blamed) => format!("refusal {}, {blamed}", refusal.number),
        None => format!("refusal {} of {any}", refusal.number),
    }
}

/// What explains refusal 8, the first in the order of the columns.
fn of_loads(row: &SheetRow) -> Option<String> {
    let [long_term, remaining] = LOADS;
    not_whole(row, long_term)
        .or_else(|| not_whole(row, remaining))
        .or_else(|| outside(total_load(row)?, &TOTAL_LOADS, &words::TOTAL_LOAD))
        .or_else(|| not_in(row, SPAN, &SPANS))
}

/// What explains refusal 10, the first in the order of the columns.
pub fn of_sag(row: &SheetRow) -> Option<String> {
    let blamed = not_in(row, SPAN, &SPANS)
        .or_else(|| not_in(row, UNFACTORED_MOMENT, &UNFACTORED_MOMENTS))
        .or_else(|| not_in(row, LIMIT, &LIMITS))?;
    let has_dash = [UNFACTORED_MOMENT, LIMIT]
        .into_iter()
        .any(|place| is_dash(&row.text(place)));
    match has_dash {
        true => Some(format!("{blamed}; leave both blank where no sag is wanted")),
        false => Some(blamed),
    }
}

/// Whether a cell's text is what people type for nothing, with or without the apostrophe that keeps it text.
fn is_dash(text: &str) -> bool {
    let text = text.trim();
    let text = text.strip_prefix('\'').unwrap_or(text);
    !text.is_empty() && text.chars().all(|letter| "-–—−".contains(letter))
}

/// What is wrong with a cell that has to be a whole number within a range.
fn not_in(row: &SheetRow, place: usize, allowed: &RangeInclusive<u64>) -> Option<String> {
    not_whole(row, place).or_else(|| outside(row.cell(place).whole()?, allowed, row.words(place)))
}

fn not_whole(row: &SheetRow, place: usize) -> Option<String> {
    let typed = row.cell(place);
    if typed.whole().is_some() {
        return None;
    }
    let problem = match typed {
        Typed::Blank => "blank".to_owned(),
        typed => unreadable(typed, &shown_cell(row, place)),
    };
    let words = row.words(place);
    let wanted = range(words);
    Some(format!("{}: {problem} (wanted: {wanted})", words.name))
}

fn outside(number: u64, allowed: &RangeInclusive<u64>, words: &CellWords) -> Option<String> {
    let (name, wanted) = (words.name, range(words));
    let is_outside = !allowed.contains(&number);
    is_outside.then(|| format!("{name}: {number} is outside {wanted}"))
}
