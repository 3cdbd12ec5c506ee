//! Wrong copies of what governs: which rows are looked at, which of equals governs, and verdicts that are kept.
use lvl_addin::answer::Verdict;
use lvl_second::{Answered, Call, Given, Governing, Held, Kept, KeptRules, Paper, Rank};

/// Whether a row governs before another, of equals of these ranks the one with the higher number.
fn higher_of(one: &Governing, other: &Governing, are: impl Fn(Rank) -> bool) -> bool {
    let rank = Paper::rank(&one.verdict);
    if rank == Paper::rank(&other.verdict) && are(rank) {
        one.number > other.number
    } else {
        Paper::governs_before(one, other)
    }
}

/// What would govern if these rows alone were held.
fn among(rows: &[Held]) -> Option<Governing> {
    Paper::governing(&Kept {
        rows: rows.to_vec(),
        next: 0,
    })
}

/// What governs, with another verdict.
fn with_verdict(kept: &Kept, change: impl Fn(Verdict) -> Verdict) -> Option<Governing> {
    let right = Paper::governing(kept)?;
    Some(Governing {
        verdict: change(right.verdict),
        ..right
    })
}

/// The right answer, with what governed before the call where this is so.
fn stale_if(kept: &mut Kept, call: &Call, is: impl Fn(&Answered) -> bool) -> Answered {
    let governing = Paper::governing(kept);
    let right = Paper::answer_call(kept, call);
    if is(&right) {
        Answered { governing, ..right }
    } else {
        right
    }
}

/// The right answer, without what governs where this is so.
fn none_if(kept: &mut Kept, call: &Call, is: impl Fn(&Answered) -> bool) -> Answered {
    let right = Paper::answer_call(kept, call);
    if is(&right) {
        Answered {
            governing: None,
            ..right
        }
    } else {
        right
    }
}

/// The row that a call added, if it did.
fn added(kept: &Kept, right: &Answered) -> Option<Governing> {
    let is_added = matches!(right.given, Ok(Given::Added(_)));
    kept.rows
        .last()
        .filter(|_| is_added)
        .map(Paper::checked_afresh)
}

wrong_copies! { KeptRules, Keeping:
    HighestNumberOfEquals {
        fn governs_before(one: &Governing, other: &Governing) -> bool {
            higher_of(one, other, |_| true)
        }
    }
    HighestNumberOfYesOrNoFails {
        fn governs_before(one: &Governing, other: &Governing) -> bool {
            higher_of(one, other, |rank| rank == Rank::YesOrNoFails)
        }
    }
    HighestNumberOfEqualUtilisations {
        fn governs_before(one: &Governing, other: &Governing) -> bool {
            higher_of(one, other, |rank| rank != Rank::YesOrNoFails)
        }
    }
    HighestNumberOfEqualPasses {
        fn governs_before(one: &Governing, other: &Governing) -> bool {
            higher_of(one, other, |rank| rank <= Rank::Uses(1_000_000))
        }
    }
    HighestNumberAtTheCap {
        fn governs_before(one: &Governing, other: &Governing) -> bool {
            higher_of(one, other, |rank| rank == Rank::Uses(9_999_999))
        }
    }
    HighestNumberBelowTheCap {
        fn governs_before(one: &Governing, other: &Governing) -> bool {
            higher_of(one, other, |rank| rank < Rank::Uses(9_999_999))
        }
    }
    NumbersComparedAsText {
        fn governs_before(one: &Governing, other: &Governing) -> bool {
            let equal = Paper::rank(&one.verdict) == Paper::rank(&other.verdict);
            if equal { one.number.to_string() < other.number.to_string() } else { Paper::governs_before(one, other) }
        }
    }
    NumbersComparedIn8Bits {
        fn governs_before(one: &Governing, other: &Governing) -> bool {
            let equal = Paper::rank(&one.verdict) == Paper::rank(&other.verdict);
            if equal { (one.number as u8) < other.number as u8 } else { Paper::governs_before(one, other) }
        }
    }
    FirstRowAlone {
        fn governing(kept: &Kept) -> Option<Governing> {
            kept.rows.first().map(Paper::checked_afresh)
        }
    }
    LastRowAlone {
        fn governing(kept: &Kept) -> Option<Governing> {
            kept.rows.last().map(Paper::checked_afresh)
        }
    }
    FirstAndLastRowAlone {
        fn governing(kept: &Kept) -> Option<Governing> {
            let (first, last) = (kept.rows.first()?, kept.rows.last()?);
            among(&[*first, *last])
        }
    }
    FirstRowLeftOut {
        fn governing(kept: &Kept) -> Option<Governing> {
            among(&kept.rows[kept.rows.len().min(1)..])
        }
    }
    LastRowLeftOut {
        fn governing(kept: &Kept) -> Option<Governing> {
            among(&kept.rows[..kept.rows.len().saturating_sub(1)])
        }
    }
    FirstRowLeftOutOfMany {
        fn governing(kept: &Kept) -> Option<Governing> {
            among(&kept.rows[usize::from(kept.rows.len() > 1)..])
        }
    }
    LastRowLeftOutOfMany {
        fn governing(kept: &Kept) -> Option<Governing> {
            among(&kept.rows[..kept.rows.len() - usize::from(kept.rows.len() > 1)])
        }
    }
    SixtyFourthRowLeftOut {
        fn governing(kept: &Kept) -> Option<Governing> {
            among(&kept.rows[..kept.rows.len().min(63)])
        }
    }
    SixtyFourthRowAndOneMoreLeftOut {
        fn governing(kept: &Kept) -> Option<Governing> {
            among(&kept.rows[..kept.rows.len().min(62)])
        }
    }
    FirstHalfAlone {
        fn governing(kept: &Kept) -> Option<Governing> {
            among(&kept.rows[..kept.rows.len().min(32)])
        }
    }
    RowsWithUtilisationsAlone {
        fn governing(kept: &Kept) -> Option<Governing> {
            let by_strength = |held: &&Held| !Paper::fails_yes_or_no(&Paper::checked_afresh(held).verdict);
            let rows: Vec<Held> = kept.rows.iter().filter(by_strength).copied().collect();
            among(&rows)
        }
    }
    FailsAlone {
        fn governing(kept: &Kept) -> Option<Governing> {
            Paper::governing(kept).filter(|governing| !governing.verdict.passes)
        }
    }
    PassesAlone {
        fn governing(kept: &Kept) -> Option<Governing> {
            Paper::governing(kept).filter(|governing| governing.verdict.passes)
        }
    }
    FirstFail {
        fn governing(kept: &Kept) -> Option<Governing> {
            let mut rows = kept.rows.iter().map(Paper::checked_afresh);
            rows.find(|row| !row.verdict.passes).or_else(|| Paper::governing(kept))
        }
    }
    LastThatRanksNoLowerThanTheOneBefore {
        fn governing(kept: &Kept) -> Option<Governing> {
            kept.rows.iter().map(Paper::checked_afresh).reduce(|so_far, one| {
                if Paper::outranks(&so_far.verdict, &one.verdict) { so_far } else { one }
            })
        }
    }
    VerdictOfTheFirstRow {
        fn governing(kept: &Kept) -> Option<Governing> {
            let first = Paper::checked_afresh(kept.rows.first()?);
            with_verdict(kept, |_| first.verdict)
        }
    }
    VerdictOfTheLastRow {
        fn governing(kept: &Kept) -> Option<Governing> {
            let last = Paper::checked_afresh(kept.rows.last()?);
            with_verdict(kept, |_| last.verdict)
        }
    }
    NumberOfTheFirstRow {
        fn governing(kept: &Kept) -> Option<Governing> {
            let number = kept.rows.first()?.number;
            Some(Governing { number, ..Paper::governing(kept)? })
        }
    }
    NumberOfTheLastRow {
        fn governing(kept: &Kept) -> Option<Governing> {
            let number = kept.rows.last()?.number;
            Some(Governing { number, ..Paper::governing(kept)? })
        }
    }
    PlaceForTheNumber {
        fn governing(kept: &Kept) -> Option<Governing> {
            let right = Paper::governing(kept)?;
            let place = Paper::place_of(kept, right.number)?;
            Some(Governing { number: place as u32 + 1, ..right })
        }
    }
    VerdictWithoutCount {
        fn governing(kept: &Kept) -> Option<Governing> {
            with_verdict(kept, |verdict| Verdict { count: 0, ..verdict })
        }
    }
    VerdictWithoutCountOnFail {
        fn governing(kept: &Kept) -> Option<Governing> {
            with_verdict(kept, |verdict| Verdict { count: if verdict.passes { verdict.count } else { 0 }, ..verdict })
        }
    }
    YesOrNoFailAtTheCapGiven {
        fn governing(kept: &Kept) -> Option<Governing> {
            with_verdict(kept, |verdict| Verdict {
                utilisation: if Paper::fails_yes_or_no(&verdict) { 9_999_999 } else { verdict.utilisation },
                ..verdict
            })
        }
    }
    YesOrNoFailAsCheck1Given {
        fn governing(kept: &Kept) -> Option<Governing> {
            with_verdict(kept, |verdict| Verdict {
                check: if Paper::fails_yes_or_no(&verdict) { 1 } else { verdict.check },
                ..verdict
            })
        }
    }
    AlwaysPasses {
        fn governing(kept: &Kept) -> Option<Governing> {
            with_verdict(kept, |verdict| Verdict { passes: true, ..verdict })
        }
    }
    AlwaysFails {
        fn governing(kept: &Kept) -> Option<Governing> {
            with_verdict(kept, |verdict| Verdict { passes: false, ..verdict })
        }
    }
    WhatGovernedBefore {
        fn answer_call(kept: &mut Kept, call: &Call) -> Answered {
            stale_if(kept, call, |_| true)
        }
    }
    WhatGovernedBeforeAnAdd {
        fn answer_call(kept: &mut Kept, call: &Call) -> Answered {
            stale_if(kept, call, |right| matches!(right.given, Ok(Given::Added(_))))
        }
    }
    WhatGovernedBeforeARemoval {
        fn answer_call(kept: &mut Kept, call: &Call) -> Answered {
            stale_if(kept, call, |right| right.given == Ok(Given::Removed))
        }
    }
    WhatGovernedBeforeItWasEmpty {
        fn answer_call(kept: &mut Kept, call: &Call) -> Answered {
            stale_if(kept, call, |right| right.governing.is_none())
        }
    }
    /// The number of the row that governs now, with the verdict of the one that did.
    VerdictThatGovernedBeforeARemoval {
        fn answer_call(kept: &mut Kept, call: &Call) -> Answered {
            let before = Paper::governing(kept);
            let right = Paper::answer_call(kept, call);
            let verdict = before.filter(|_| right.given == Ok(Given::Removed)).map(|row| row.verdict);
            let governing = right.governing.map(|row| Governing { verdict: verdict.unwrap_or(row.verdict), ..row });
            Answered { governing, ..right }
        }
    }
    NoneAfterARefusal {
        fn answer_call(kept: &mut Kept, call: &Call) -> Answered {
            none_if(kept, call, |right| right.given.is_err())
        }
    }
    NoneAfterARefusedRow {
        fn answer_call(kept: &mut Kept, call: &Call) -> Answered {
            none_if(kept, call, |right| right.given.is_err_and(|found| found.number < 11))
        }
    }
    NoneAfter11 {
        fn answer_call(kept: &mut Kept, call: &Call) -> Answered {
            none_if(kept, call, |right| right.given.is_err_and(|found| found.number == 11))
        }
    }
    NoneAfter12 {
        fn answer_call(kept: &mut Kept, call: &Call) -> Answered {
            none_if(kept, call, |right| right.given.is_err_and(|found| found.number == 12))
        }
    }
    NoneAfterARemoval {
        fn answer_call(kept: &mut Kept, call: &Call) -> Answered {
            none_if(kept, call, |right| right.given == Ok(Given::Removed))
        }
    }
    AddedRowGoverns {
        fn answer_call(kept: &mut Kept, call: &Call) -> Answered {
            let right = Paper::answer_call(kept, call);
            Answered { governing: added(kept, &right).or(right.governing), ..right }
        }
    }
    AddedRowGovernsAmongEquals {
        fn answer_call(kept: &mut Kept, call: &Call) -> Answered {
            let right = Paper::answer_call(kept, call);
            let added = added(kept, &right).filter(|row| {
                right.governing.is_some_and(|governing| !Paper::outranks(&governing.verdict, &row.verdict))
            });
            Answered { governing: added.or(right.governing), ..right }
        }
    }
    FirstRowGovernsAfterTheGoverningOne {
        fn answer_call(kept: &mut Kept, call: &Call) -> Answered {
            let before = Paper::governing(kept).map(|row| row.number);
            let right = Paper::answer_call(kept, call);
            let is_gone = before.is_some_and(|number| Paper::place_of(kept, number).is_none());
            let first = kept.rows.first().filter(|_| is_gone).map(Paper::checked_afresh);
            Answered { governing: first.or(right.governing), ..right }
        }
    }
    LastRowGovernsAfterTheGoverningOne {
        fn answer_call(kept: &mut Kept, call: &Call) -> Answered {
            let before = Paper::governing(kept).map(|row| row.number);
            let right = Paper::answer_call(kept, call);
            let is_gone = before.is_some_and(|number| Paper::place_of(kept, number).is_none());
            let last = kept.rows.last().filter(|_| is_gone).map(Paper::checked_afresh);
            Answered { governing: last.or(right.governing), ..right }
        }
    }
    /// Judges the first row of all and gives that verdict for good.
    FirstVerdictForGood {
        fn checked_afresh(held: &Held) -> Governing {
            thread_local!(static FIRST: std::cell::OnceCell<Verdict> = const { std::cell::OnceCell::new() });
            let right = Paper::checked_afresh(held);
            FIRST.with(|first| Governing { verdict: *first.get_or_init(|| right.verdict), ..right })
        }
    }
}
