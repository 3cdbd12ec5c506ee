//! Wrong copies of rules that a floor beam shares with the row: its beams show them by themselves.
use crate::evidence::Wrong;
use crate::{families, host, reading, strength, verdict};

pub fn copies() -> Vec<Wrong> {
    let mut copies = families::on_beams();
    copies.extend(shown_by![Flooring:
        reading::NegativeZeroRefused,
        reading::NegativesWithoutSign,
        reading::NegativesAsZero,
        reading::TwoToThe34Accepted,
        reading::FractionsCutOff,
        reading::SmallFractionsAsZero,
        reading::QuietNanAsZero,
        reading::SignallingNanAsZero,
        reading::AnyOtherFirstByteFilled,
        reading::AnyOtherFirstByteBlank,
        reading::LowestBitOfFirstByte,
        reading::FilledAndBlankExchanged,
        reading::BlanksMustBeZero,
        reading::BlanksWithBitsFilled,
        reading::RowHighestByteFirst,
        host::AnswerHighestByteFirst,
        host::AnswerAsWholeNumbers,
        host::PassAndFailExchanged,
        host::RefusalWithoutCell,
        strength::StrengthUp,
        strength::BendingCapacityUp,
        strength::ShearCapacityUp,
        verdict::HighestOfEquals,
        verdict::LeastGoverns,
        verdict::NoCap,
        verdict::PassLimitStrict,
        verdict::PassLimitOneMore,
        verdict::PassesEveryRow,
        verdict::FailsEveryRow,
        verdict::RefusesEveryRow,
    ]);
    copies
}
