//! Wrong copies of which loads and spans are taken.
use lvl_addin::answer::Refusal;
use lvl_second::floor_beam::{Loads, LOAD_CELLS};
use lvl_second::{FloorRules, Paper};
use std::ops::{RangeFrom, RangeInclusive};

/// Both loads and the span as they read.
type Read = [Option<Option<u64>>; LOAD_CELLS];

/// Refusal 8 with another number and cell, where a cell is of a sort.
fn refused_as(
    read: &Read,
    sort: fn(&Option<Option<u64>>) -> bool,
    refusal: impl Fn(u32) -> Refusal,
) -> Result<Loads, Refusal> {
    match read.iter().position(sort) {
        Some(at) => Err(refusal(at as u32 + 1)),
        None => Paper::loads(read),
    }
}

wrong_copies! { FloorRules, Flooring:
    TotalFrom99 {
        fn total_range() -> RangeInclusive<u64> {
            99..=100_000
        }
    }
    TotalFrom101 {
        fn total_range() -> RangeInclusive<u64> {
            101..=100_000
        }
    }
    TotalTo99999 {
        fn total_range() -> RangeInclusive<u64> {
            100..=99_999
        }
    }
    TotalTo100001 {
        fn total_range() -> RangeInclusive<u64> {
            100..=100_001
        }
    }
    SpanFrom499 {
        fn span_range() -> RangeInclusive<u64> {
            499..=20_000
        }
    }
    SpanFrom501 {
        fn span_range() -> RangeInclusive<u64> {
            501..=20_000
        }
    }
    SpanTo19999 {
        fn span_range() -> RangeInclusive<u64> {
            500..=19_999
        }
    }
    SpanTo20001 {
        fn span_range() -> RangeInclusive<u64> {
            500..=20_001
        }
    }
    LoadsFromOne {
        fn load_range() -> RangeFrom<u64> {
            1..
        }
    }
    LoadsFromTheLeastTotal {
        fn load_range() -> RangeFrom<u64> {
            100..
        }
    }
    NothingTested {
        fn loads_fit(_loads: &Loads) -> bool {
            true
        }
    }
    TotalNotTested {
        fn loads_fit(loads: &Loads) -> bool {
            Paper::span_range().contains(&loads.span)
        }
    }
    SpanNotTested {
        fn loads_fit(loads: &Loads) -> bool {
            Paper::total_range().contains(&Paper::total(loads))
        }
    }
    LeastTotalNotTested {
        fn total_range() -> RangeInclusive<u64> {
            0..=100_000
        }
    }
    NoLoadAtAllAccepted {
        fn loads_fit(loads: &Loads) -> bool {
            Paper::loads_fit(loads) || Paper::total(loads) == 0 && Paper::span_range().contains(&loads.span)
        }
    }
    BothLoadsInTheRangeOfTheTotal {
        fn loads_fit(loads: &Loads) -> bool {
            [loads.first, loads.second].iter().all(|load| Paper::total_range().contains(load))
                && Paper::span_range().contains(&loads.span)
        }
    }
    EitherLoadInTheRangeOfTheTotal {
        fn loads_fit(loads: &Loads) -> bool {
            [loads.first, loads.second].iter().any(|load| Paper::total_range().contains(load))
                && Paper::span_range().contains(&loads.span)
        }
    }
    EachLoadUpToTheGreatestTotal {
        fn loads_fit(loads: &Loads) -> bool {
            loads.first.max(loads.second) <= 100_000 && Paper::total(loads) >= 100 && Paper::span_range().contains(&loads.span)
        }
    }
    TotalIn32Bits {
        fn total(loads: &Loads) -> u64 {
            u64::from(Paper::total(loads) as u32)
        }
    }
    SpanIn16Bits {
        fn loads_fit(loads: &Loads) -> bool {
            Paper::loads_fit(&Loads { span: loads.span % (1 << 16), ..*loads })
        }
    }
    TotalOfTheFirstLoad {
        fn total(loads: &Loads) -> u64 {
            loads.first
        }
    }
    TotalOfTheSecondLoad {
        fn total(loads: &Loads) -> u64 {
            loads.second
        }
    }
    TotalOfTheGreaterLoad {
        fn total(loads: &Loads) -> u64 {
            loads.first.max(loads.second)
        }
    }
    FirstLoadCountedTwice {
        fn total(loads: &Loads) -> u64 {
            2 * loads.first + loads.second
        }
    }
    BlankLoadAsZero {
        fn load_cell(read: Option<Option<u64>>) -> Option<u64> {
            read.map(|cell| cell.unwrap_or(0))
        }
    }
    UnreadableLoadAsZero {
        fn load_cell(read: Option<Option<u64>>) -> Option<u64> {
            read.unwrap_or(Some(0))
        }
    }
    ZeroLoadAsBlank {
        fn load_cell(read: Option<Option<u64>>) -> Option<u64> {
            read.flatten().filter(|&number| number != 0)
        }
    }
    BlankFirstLoadAsZero {
        fn loads(read: &Read) -> Result<Loads, Refusal> {
            let [first, second, span] = *read;
            Paper::loads(&[if first == Some(None) { Some(Some(0)) } else { first }, second, span])
        }
    }
    BlankSecondLoadAsZero {
        fn loads(read: &Read) -> Result<Loads, Refusal> {
            let [first, second, span] = *read;
            Paper::loads(&[first, if second == Some(None) { Some(Some(0)) } else { second }, span])
        }
    }
    LoadsExchanged {
        fn loads(read: &Read) -> Result<Loads, Refusal> {
            let [first, second, span] = *read;
            Paper::loads(&[second, first, span])
        }
    }
    SpanBeforeTheLoads {
        fn loads(read: &Read) -> Result<Loads, Refusal> {
            let [span, first, second] = *read;
            Paper::loads(&[first, second, span])
        }
    }
    UnreadableLoadAsRefusal1 {
        fn loads(read: &Read) -> Result<Loads, Refusal> {
            refused_as(read, Option::is_none, |_| Refusal { number: 1, cell: 0 })
        }
    }
    UnreadableLoadNamed {
        fn loads(read: &Read) -> Result<Loads, Refusal> {
            refused_as(read, Option::is_none, |cell| Refusal { number: 1, cell })
        }
    }
    BlankLoadAsRefusal2 {
        fn loads(read: &Read) -> Result<Loads, Refusal> {
            refused_as(read, |cell| *cell == Some(None), |_| Refusal { number: 2, cell: 0 })
        }
    }
    BlankLoadNamed {
        fn loads(read: &Read) -> Result<Loads, Refusal> {
            refused_as(read, |cell| *cell == Some(None), |cell| Refusal { number: 8, cell })
        }
    }
    SpanNamed {
        fn loads(read: &Read) -> Result<Loads, Refusal> {
            let named = Refusal { number: 8, cell: 3 };
            let span = Paper::load_cell(read[2]).filter(|span| Paper::span_range().contains(span));
            if span.is_none() { Err(named) } else { Paper::loads(read) }
        }
    }
    LoadsOutsideAsRefusal4 {
        fn load_refusal() -> Refusal {
            Refusal { number: 4, cell: 0 }
        }
    }
    LoadsOutsideAsRefusal9 {
        fn load_refusal() -> Refusal {
            Refusal { number: 9, cell: 0 }
        }
    }
    LoadsOutsideNameCell1 {
        fn load_refusal() -> Refusal {
            Refusal { number: 8, cell: 1 }
        }
    }
    LoadsOutsideNameTheMoment {
        fn load_refusal() -> Refusal {
            Refusal { number: 8, cell: 9 }
        }
    }
}
