//! Wrong copies of rules that a sag shares with the check of a row: its answers show them by themselves.
use crate::evidence::{Sagging, Wrong};
use crate::{acceptance, families, host, reading, verdict};

pub fn copies() -> Vec<Wrong> {
    let mut copies = families::on_sags();
    copies.extend(reading::copies_shown_by::<Sagging>());
    copies.extend(acceptance::copies_shown_by::<Sagging>());
    copies.extend(shown_by![Sagging:
        host::AnswerHighestByteFirst,
        host::AnswerAsWholeNumbers,
        host::AnswerByWayOfShortFloats,
        host::ThousandTimesTheCell,
        host::HundredTimesTheNumber,
        host::RefusalWithoutCell,
        verdict::NoCap,
        verdict::CapOneLess,
        verdict::CapOneMore,
        verdict::PassLimitStrict,
        verdict::PassLimitOneMore,
    ]);
    copies
}
