//! Wrong copies of rules that strengths share with the check of a row: their answers show them by themselves.
use crate::evidence::{GivingStrengths, Wrong};
use crate::{acceptance, families, host, reading, strength};

pub fn copies() -> Vec<Wrong> {
    let mut copies = families::on_strengths();
    copies.extend(reading::copies_shown_by::<GivingStrengths>());
    copies.extend(acceptance::copies_shown_by::<GivingStrengths>());
    copies.extend(shown_by![GivingStrengths:
        host::AnswerHighestByteFirst,
        host::AnswerAsWholeNumbers,
        host::AnswerByWayOfShortFloats,
        host::ThousandTimesTheCell,
        host::HundredTimesTheNumber,
        host::RefusalWithoutCell,
        strength::DurationLeftOut,
        strength::MoistureLeftOut,
        strength::OfficeFactorLeftOut,
        strength::DurationCappedAtOne,
        strength::FactorsCappedAtOne,
        strength::StrengthUp,
        strength::StrengthToNearest,
        strength::BendingByCompression,
        strength::CompressionByTension,
        strength::TensionByCompression,
        strength::ShearOfTheLowestGrade,
    ]);
    copies
}
