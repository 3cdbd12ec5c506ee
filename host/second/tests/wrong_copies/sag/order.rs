//! Wrong copies of the order of the refusals.
use super::{right, Given};
use crate::answers;
use lvl_addin::answer::Refusal;
use lvl_addin::sag::{SagVerdict, SAG_BYTES};
use lvl_second::cells::{cell, Kind, KIND};
use lvl_second::{Cells, Member, Paper, Rules, SagRules};

/// The right refusal or verdict once a rule refuses nothing.
fn after<T>(first: Result<T, Refusal>, row: &[u8], sag: &[u8]) -> Result<SagVerdict, Refusal> {
    first.and_then(|_| Paper::check_sag(row, sag))
}

fn refuse_kind(kind: Kind) -> Result<(), Refusal> {
    if Paper::has_sag(kind) {
        Ok(())
    } else {
        Err(Paper::kind_refusal())
    }
}

/// Refusal 9 as soon as the first cell's bytes tell it.
fn kind_of_bytes(row: &[u8]) -> Result<(), Refusal> {
    let Some((&[tag], rest)) = row.split_first_chunk() else {
        return Ok(());
    };
    let bits = rest
        .first_chunk()
        .map_or(0, |&float| Paper::float_bits(float));
    let first = Paper::read_cell(tag, bits).flatten();
    first.and_then(Paper::kind).map_or(Ok(()), refuse_kind)
}

fn refuse_length(sag: &[u8]) -> Result<(), Refusal> {
    if sag.len() == SAG_BYTES {
        Ok(())
    } else {
        Err(Paper::sag_refusal())
    }
}

/// Refusal 10 for a cell that does not read, where all others are as they may be.
fn refuse_unreadable(sag: &[u8]) -> Result<(), Refusal> {
    let read = Paper::read_sag_cells(sag)?;
    if read.iter().all(Option::is_some) {
        Ok(())
    } else {
        Err(Paper::sag_refusal())
    }
}

/// Refusal 2 or 3 for cell 1, and refusal 2, of a row that reads.
fn filled(row: &[u8]) -> Result<(Kind, Cells), Refusal> {
    let cells = Paper::read_row(row)?;
    let kind = Paper::kind_of(&cells)?;
    Paper::refuse_misfilled(kind, &cells)?;
    Ok((kind, cells))
}

/// The entry where the answer's length is refused before all that a rule does not refuse.
fn fits_before<T>(
    given: Given,
    answer: &mut [u8],
    rule: impl Fn(&[u8], &[u8]) -> Result<T, Refusal>,
) -> u64 {
    let rule = |given: &Given| rule(given.0, given.1);
    answers::fits_before(right, &given, answer, Paper::sag_answer_fits, rule)
}

wrong_copies! { SagRules, Sagging:
    SagBeforeTheKind {
        fn check_sag(row: &[u8], sag: &[u8]) -> Result<SagVerdict, Refusal> {
            Paper::accept(&Paper::read_row(row)?)?;
            after(Paper::read_sag(sag), row, sag)
        }
    }
    SagBeforeRanges {
        fn check_sag(row: &[u8], sag: &[u8]) -> Result<SagVerdict, Refusal> {
            let (kind, cells) = filled(row)?;
            Paper::codes(kind, &cells)?;
            after(Paper::read_sag(sag), row, sag)
        }
    }
    SagBeforeCodes {
        fn check_sag(row: &[u8], sag: &[u8]) -> Result<SagVerdict, Refusal> {
            filled(row)?;
            after(Paper::read_sag(sag), row, sag)
        }
    }
    SagBeforeFills {
        fn check_sag(row: &[u8], sag: &[u8]) -> Result<SagVerdict, Refusal> {
            Paper::kind_of(&Paper::read_row(row)?)?;
            after(Paper::read_sag(sag), row, sag)
        }
    }
    SagBeforeTheRow {
        fn check_sag(row: &[u8], sag: &[u8]) -> Result<SagVerdict, Refusal> {
            Paper::read_row(row)?;
            after(Paper::read_sag(sag), row, sag)
        }
    }
    SagBeforeAll {
        fn check_sag(row: &[u8], sag: &[u8]) -> Result<SagVerdict, Refusal> {
            after(Paper::read_sag(sag), row, sag)
        }
    }
    SagLengthBeforeTheKind {
        fn check_sag(row: &[u8], sag: &[u8]) -> Result<SagVerdict, Refusal> {
            Paper::accept(&Paper::read_row(row)?)?;
            after(refuse_length(sag), row, sag)
        }
    }
    SagLengthBeforeTheRow {
        fn check_sag(row: &[u8], sag: &[u8]) -> Result<SagVerdict, Refusal> {
            Paper::read_row(row)?;
            after(refuse_length(sag), row, sag)
        }
    }
    SagLengthBeforeAll {
        fn check_sag(row: &[u8], sag: &[u8]) -> Result<SagVerdict, Refusal> {
            after(refuse_length(sag), row, sag)
        }
    }
    UnreadableSagBeforeTheKind {
        fn check_sag(row: &[u8], sag: &[u8]) -> Result<SagVerdict, Refusal> {
            Paper::accept(&Paper::read_row(row)?)?;
            after(refuse_unreadable(sag), row, sag)
        }
    }
    UnreadableSagBeforeTheRow {
        fn check_sag(row: &[u8], sag: &[u8]) -> Result<SagVerdict, Refusal> {
            Paper::read_row(row)?;
            after(refuse_unreadable(sag), row, sag)
        }
    }
    KindBeforeRanges {
        fn sagging_member(cells: &Cells) -> Result<Member, Refusal> {
            let kind = Paper::kind_of(cells)?;
            Paper::refuse_misfilled(kind, cells)?;
            Paper::codes(kind, cells)?;
            refuse_kind(kind)?;
            Paper::sagging_member(cells)
        }
    }
    KindBeforeCodes {
        fn sagging_member(cells: &Cells) -> Result<Member, Refusal> {
            let kind = Paper::kind_of(cells)?;
            Paper::refuse_misfilled(kind, cells)?;
            refuse_kind(kind)?;
            Paper::sagging_member(cells)
        }
    }
    KindBeforeFills {
        fn sagging_member(cells: &Cells) -> Result<Member, Refusal> {
            refuse_kind(Paper::kind_of(cells)?)?;
            Paper::sagging_member(cells)
        }
    }
    KindBeforeAll {
        fn check_sag(row: &[u8], sag: &[u8]) -> Result<SagVerdict, Refusal> {
            after(kind_of_bytes(row), row, sag)
        }
    }
    UnknownKindAsAnother {
        fn sagging_member(cells: &Cells) -> Result<Member, Refusal> {
            match cell(cells, KIND) {
                Some(code) if Paper::kind(code).is_none() => Err(Paper::kind_refusal()),
                _ => Paper::sagging_member(cells),
            }
        }
    }
    BlankKindAsAnother {
        fn sagging_member(cells: &Cells) -> Result<Member, Refusal> {
            match cell(cells, KIND) {
                None => Err(Paper::kind_refusal()),
                _ => Paper::sagging_member(cells),
            }
        }
    }
    RefusalsOfTheRowAs9 {
        fn sagging_member(cells: &Cells) -> Result<Member, Refusal> {
            Paper::sagging_member(cells).map_err(|_| Paper::kind_refusal())
        }
    }
    RefusalsOfTheRowAs10 {
        fn sagging_member(cells: &Cells) -> Result<Member, Refusal> {
            Paper::accept(cells).map_err(|_| Paper::sag_refusal())?;
            Paper::sagging_member(cells)
        }
    }
    RefusalsOfTheRowNotNamed {
        fn sagging_member(cells: &Cells) -> Result<Member, Refusal> {
            Paper::accept(cells).map_err(|found| Refusal { cell: 0, ..found })?;
            Paper::sagging_member(cells)
        }
    }
    AnswerLengthBeforeAll {
        fn check_sag_bytes(row: &[u8], sag: &[u8], answer: &mut [u8]) -> u64 {
            fits_before((row, sag), answer, |_, _| Ok(()))
        }
    }
    AnswerLengthBeforeUnreadableCells {
        fn check_sag_bytes(row: &[u8], sag: &[u8], answer: &mut [u8]) -> u64 {
            fits_before((row, sag), answer, |row, _| match Paper::read_row(row) {
                Err(found) if found.cell == 0 => Err(found),
                _ => Ok(()),
            })
        }
    }
    AnswerLengthBeforeTheRow {
        fn check_sag_bytes(row: &[u8], sag: &[u8], answer: &mut [u8]) -> u64 {
            fits_before((row, sag), answer, |row, _| Paper::read_row(row))
        }
    }
    AnswerLengthBeforeFills {
        fn check_sag_bytes(row: &[u8], sag: &[u8], answer: &mut [u8]) -> u64 {
            fits_before((row, sag), answer, |row, _| Paper::kind_of(&Paper::read_row(row)?))
        }
    }
    AnswerLengthBeforeCodes {
        fn check_sag_bytes(row: &[u8], sag: &[u8], answer: &mut [u8]) -> u64 {
            fits_before((row, sag), answer, |row, _| filled(row))
        }
    }
    AnswerLengthBeforeRanges {
        fn check_sag_bytes(row: &[u8], sag: &[u8], answer: &mut [u8]) -> u64 {
            fits_before((row, sag), answer, |row, _| {
                let (kind, cells) = filled(row)?;
                Paper::codes(kind, &cells)
            })
        }
    }
    AnswerLengthBeforeTheKind {
        fn check_sag_bytes(row: &[u8], sag: &[u8], answer: &mut [u8]) -> u64 {
            fits_before((row, sag), answer, |row, _| Paper::accept(&Paper::read_row(row)?))
        }
    }
    AnswerLengthBeforeTheSag {
        fn check_sag_bytes(row: &[u8], sag: &[u8], answer: &mut [u8]) -> u64 {
            fits_before((row, sag), answer, |row, _| Paper::sagging_member(&Paper::read_row(row)?))
        }
    }
    AnswerLengthBeforeTheCellsOfTheSag {
        fn check_sag_bytes(row: &[u8], sag: &[u8], answer: &mut [u8]) -> u64 {
            fits_before((row, sag), answer, |row, sag| {
                Paper::sagging_member(&Paper::read_row(row)?)?;
                refuse_length(sag)
            })
        }
    }
    AnswerLengthBeforeTheRangesOfTheSag {
        fn check_sag_bytes(row: &[u8], sag: &[u8], answer: &mut [u8]) -> u64 {
            fits_before((row, sag), answer, |row, sag| {
                Paper::sagging_member(&Paper::read_row(row)?)?;
                refuse_unreadable(sag)
            })
        }
    }
}
