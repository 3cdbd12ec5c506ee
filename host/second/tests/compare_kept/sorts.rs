//! The sorts of calls and answers, and how often each has to occur.
use crate::seen::Seen;
use lvl_second::kept::{CAPACITY, LAST_NUMBER};
use lvl_second::{Governing, KeptRules, Paper};

/// A sort, whether a call with its answer is of it, and the least number of these.
pub struct Sort {
    pub name: String,
    pub is: Box<dyn Fn(&Seen) -> bool>,
    pub least: u64,
}

fn sort(name: impl Into<String>, least: u64, is: impl Fn(&Seen) -> bool + 'static) -> Sort {
    Sort {
        name: name.into(),
        is: Box::new(is),
        least,
    }
}

/// The sorts of the random lists.
pub fn of_lists() -> Vec<Sort> {
    let mut sorts = of_adds();
    sorts.extend(of_removals());
    sorts.extend(of_what_governs());
    sorts.extend(of_ties());
    sorts
}

#[rustfmt::skip]
fn of_adds() -> Vec<Sort> {
    let mut sorts = vec![
        sort("added", 10_000, |seen| seen.added().is_some()),
        sort("added to none", 1000, |seen| seen.added().is_some() && seen.before.is_empty()),
        sort("added as the 64th", 1000, |seen| seen.added().is_some() && seen.after.len() == CAPACITY),
        sort("added a row equal in verdict to one held", 1000, |seen| seen.added().is_some_and(|added| {
            let verdict = seen.after.iter().find(|row| row.number == added).map(|row| row.verdict);
            seen.before.iter().any(|row| Some(row.verdict) == verdict)
        })),
        sort("added after number 256", 1000, |seen| seen.added().is_some_and(|added| added > 256)),
        sort("refused 11 with 64 held", 1000, |seen| seen.is_refused_by(11) && seen.was_full()),
    ];
    for number in 1..=4 {
        sorts.extend([
            sort(format!("refused {number}"), 1000, move |seen| seen.is_refused_by(number)),
            sort(format!("refused {number} with 64 held"), 100, move |seen| seen.is_refused_by(number) && seen.was_full()),
            sort(format!("refused {number} with none held"), 50, move |seen| seen.is_refused_by(number) && seen.before.is_empty()),
        ]);
    }
    sorts
}

#[rustfmt::skip]
fn of_removals() -> Vec<Sort> {
    let mut sorts = vec![
        sort("removed", 10_000, |seen| seen.removed().is_some()),
        sort("removed with 64 held", 1000, |seen| seen.removed().is_some() && seen.was_full()),
        sort("removed the last row", 1000, |seen| seen.removed().is_some() && seen.after.is_empty()),
        sort("removed the governing row", 1000, |seen| seen.removed_the_governing()),
        sort("removed the governing row, and an equal one governs", 1000, |seen| {
            seen.removed_the_governing() && seen.rank() == seen.governed.map(|row| Paper::rank(&row.verdict))
        }),
        sort("removed the governing row, and a lower rank governs", 1000, |seen| {
            seen.removed_the_governing() && seen.rank() < seen.governed.map(|row| Paper::rank(&row.verdict)) && seen.rank().is_some()
        }),
        sort("removed a yes-or-no fail, and a utilisation governs", 100, |seen| {
            seen.removed_the_governing() && seen.governs_by_utilisation()
                && seen.governed.is_some_and(|row| Paper::fails_yes_or_no(&row.verdict))
        }),
        sort("removed another row than the governing one", 1000, |seen| seen.removed().is_some() && !seen.removed_the_governing()),
        sort("removed an equal of the governing row", 1000, |seen| {
            let removed = seen.before.iter().find(|row| Some(row.number) == seen.removed());
            !seen.removed_the_governing() && removed.is_some_and(|row| Some(Paper::rank(&row.verdict)) == seen.rank())
        }),
        sort("removed the row held first", 1000, |seen| seen.removed().is_some() && seen.removed() == seen.before.first().map(|row| row.number)),
        sort("removed the row held last", 1000, |seen| seen.removed().is_some() && seen.removed() == seen.before.last().map(|row| row.number)),
        sort("refused 12", 1000, |seen| seen.is_refused_by(12)),
        sort("refused 12 with 64 held", 100, |seen| seen.is_refused_by(12) && seen.was_full()),
        sort("refused 12 with none held", 100, |seen| seen.is_refused_by(12) && seen.before.is_empty()),
        sort("refused 12 for a number gone", 1000, |seen| seen.missed().is_some_and(|number| (1..seen.next).contains(&number))),
        sort("refused 12 for number 0", 100, |seen| seen.missed() == Some(0)),
        sort("refused 12 for the next number", 100, |seen| seen.missed() == Some(seen.next)),
        sort("refused 12 for the number after that", 100, |seen| seen.missed() == Some(seen.next + 1)),
        sort("refused 12 for the last number", 100, |seen| seen.missed() == Some(LAST_NUMBER)),
        sort("refused 12 for one beyond the last number", 100, |seen| seen.missed() == Some(LAST_NUMBER + 1)),
        sort("refused 12 for the greatest of 32 bits", 100, |seen| seen.missed() == Some(u32::MAX)),
        sort("refused 12 for the bytes of a number exchanged", 100, |seen| {
            seen.missed().is_some_and(|number| seen.before.iter().any(|row| row.number == number.swap_bytes()))
        }),
    ];
    for bits in [8, 16, 24, 31] {
        let name = format!("refused 12 for a number held in its lower {bits} bits");
        sorts.push(sort(name, 100, move |seen| seen.missed_above(bits)));
    }
    sorts
}

#[rustfmt::skip]
fn of_what_governs() -> Vec<Sort> {
    vec![
        sort("governed by none", 1000, |seen| seen.governing().is_none()),
        sort("governed by a yes-or-no fail", 10_000, |seen| seen.governs_yes_or_no()),
        sort("governed by a utilisation", 10_000, |seen| seen.governs_by_utilisation()),
        sort("governed by a fail on check 4 with dowels", 100, |seen| {
            seen.governing().is_some_and(|row| row.verdict.check == 4 && row.verdict.count > 0)
        }),
        sort("governed by none after a refused call", 100, |seen| seen.is_refused() && seen.governing().is_none()),
        sort("governed as before after a refused add", 1000, |seen| seen.is_refused() && seen.adds() && seen.governing() == seen.governed && seen.governed.is_some()),
        sort("governed as before after a refused removal", 1000, |seen| seen.is_refused() && !seen.adds() && seen.governing() == seen.governed && seen.governed.is_some()),
        sort("a yes-or-no fail before a pass of a lower number", 1000, |seen| seen.governs_yes_or_no() && seen.passes_over(|row| row.verdict.passes)),
        sort("a yes-or-no fail before a fail by strength of a lower number", 1000, |seen| {
            seen.governs_yes_or_no() && seen.passes_over(|row| !row.verdict.passes && row.verdict.check > 4)
        }),
        sort("a yes-or-no fail before a utilisation at the cap of a lower number", 1000, |seen| {
            seen.governs_yes_or_no() && seen.passes_over(|row| row.verdict.utilisation == 9_999_999)
        }),
        sort("a fail by strength before a pass of a lower number", 1000, |seen| {
            seen.governs_by_utilisation() && seen.governing().is_some_and(|row| !row.verdict.passes) && seen.passes_over(|row| row.verdict.passes)
        }),
        sort("a pass before a pass of a lower number", 1000, |seen| {
            seen.governing().is_some_and(|row| row.verdict.passes) && seen.passes_over(|row| row.verdict.passes)
        }),
        sort("a utilisation before one less by 1", 300, |seen| seen.is_ahead_by(1)),
        sort("a utilisation before one of a lower number less by 1", 100, |seen| {
            seen.is_ahead_by(1) && seen.passes_over(|row| Some(row.verdict.utilisation + 1) == seen.governing().map(|row| row.verdict.utilisation))
        }),
        sort("a utilisation at the cap before one of a lower number less by 1", 100, |seen| {
            seen.governing().is_some_and(|row| row.verdict.utilisation == 9_999_999) && seen.passes_over(|row| row.verdict.utilisation == 9_999_998)
        }),
        sort("an added row takes over", 1000, |seen| seen.takes_over()),
        sort("an added row takes over a full schedule", 10, |seen| seen.takes_over() && seen.after.len() == CAPACITY),
        sort("an added row ranks as the governing one", 1000, |seen| seen.does_not_take_over()),
    ]
}

#[rustfmt::skip]
fn of_ties() -> Vec<Sort> {
    let mut sorts = vec![
        sort("ties decided by the lowest number", 10_000, |seen| seen.ties()),
        sort("ties of passes", 1000, |seen| seen.ties_with(|row, _| row.verdict.passes)),
        sort("ties of fails by strength", 1000, |seen| seen.ties_with(|row, _| !row.verdict.passes && row.verdict.check > 4)),
        sort("ties of utilisations on different checks", 1000, |seen| {
            seen.governs_by_utilisation() && seen.ties_with(|row, other| row.verdict.check != other.verdict.check)
        }),
        sort("ties of utilisations, the governing check higher", 1000, |seen| {
            seen.governs_by_utilisation() && seen.ties_with(|row, other| row.verdict.check > other.verdict.check)
        }),
        sort("ties of utilisations with different counts", 100, |seen| {
            seen.governs_by_utilisation() && seen.ties_with(|row, other| row.verdict.count != other.verdict.count)
        }),
    ];
    for one in 1..=4 {
        for other in 1..=4 {
            let name = format!("a fail on check {one} before an equal one on check {other}");
            sorts.push(sort(name, 100, move |seen| {
                seen.ties_with(|row, equal| {
                    let failed = |row: &Governing| Paper::fails_yes_or_no(&row.verdict).then_some(row.verdict.check);
                    failed(row) == Some(one) && failed(equal) == Some(other)
                })
            }));
        }
    }
    sorts
}

/// The sorts of the list that spends the numbers.
#[rustfmt::skip]
pub fn of_spending() -> Vec<Sort> {
    let mut sorts = vec![
        sort("added", LAST_NUMBER.into(), |seen| seen.added().is_some()),
        sort("added as number 1,000,000", 1, |seen| seen.added() == Some(LAST_NUMBER)),
        sort("added as number 65,536", 1, |seen| seen.added() == Some(65_536)),
        sort("removed", 900_000, |seen| seen.removed().is_some()),
        sort("removed with the numbers spent", 60, |seen| seen.removed().is_some() && seen.numbers_were_spent()),
        sort("removed number 1,000,000", 1, |seen| seen.removed() == Some(LAST_NUMBER)),
        sort("removed the last row with the numbers spent", 1, |seen| {
            seen.removed().is_some() && seen.numbers_were_spent() && seen.after.is_empty()
        }),
        sort("refused 11 with 64 held and numbers left", 5, |seen| seen.is_refused_by(11) && seen.was_full() && !seen.numbers_were_spent()),
        sort("refused 11 with 64 held and the numbers spent", 5, |seen| seen.is_refused_by(11) && seen.was_full() && seen.numbers_were_spent()),
        sort("refused 11 with the numbers spent and room", 500, |seen| {
            seen.is_refused_by(11) && seen.numbers_were_spent() && !seen.was_full() && !seen.before.is_empty()
        }),
        sort("refused 11 with the numbers spent and none held", 500, |seen| seen.is_refused_by(11) && seen.numbers_were_spent() && seen.before.is_empty()),
        sort("refused 12 with the numbers spent", 50, |seen| seen.is_refused_by(12) && seen.numbers_were_spent()),
        sort("refused 12 for number 1,000,001 with the numbers spent", 5, |seen| seen.missed() == Some(LAST_NUMBER + 1) && seen.numbers_were_spent()),
        sort("a row refused for its own sake", 10_000, |seen| seen.row_is_refused()),
    ];
    for number in 1..=4 {
        let name = format!("refused {number} with the numbers spent");
        sorts.push(sort(name, 10, move |seen| seen.is_refused_by(number) && seen.numbers_were_spent()));
    }
    sorts
}
