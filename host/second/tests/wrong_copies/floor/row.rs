//! Wrong copies of the row that is made of a beam: regime, M, Q and where they go.
use lvl_addin::answer::Refusal;
use lvl_addin::floor_beam::BeamVerdict;
use lvl_second::cells::*;
use lvl_second::floor_beam::{FloorBeam, Loads};
use lvl_second::{FloorRules, Paper, Rules};

const LONG_TERM: u64 = 2;
const SHORT_TERM: u64 = 3;

/// Б where it is so, otherwise В.
fn long_term_if(is: bool) -> u64 {
    if is {
        LONG_TERM
    } else {
        SHORT_TERM
    }
}

/// Another code in place of the right one.
fn recoded(loads: &Loads, right: u64, wrong: u64) -> u64 {
    let code = Paper::regime(loads);
    if code == right {
        wrong
    } else {
        code
    }
}

/// The right row with one cell changed.
fn with(beam: &FloorBeam, number: usize, value: Option<u64>) -> Cells {
    let mut row = Paper::beam_row(beam);
    row[number - 1] = value;
    row
}

/// The right row with two cells exchanged.
fn exchanged(beam: &FloorBeam, one: usize, other: usize) -> Cells {
    let mut row = Paper::beam_row(beam);
    row.swap(one - 1, other - 1);
    row
}

wrong_copies! { FloorRules, Flooring:
    EightyPercentIsLongTerm {
        fn regime(loads: &Loads) -> u64 {
            long_term_if(5 * loads.first >= 4 * Paper::total(loads))
        }
    }
    SeventyNinePercent {
        fn regime(loads: &Loads) -> u64 {
            long_term_if(100 * loads.first > 79 * Paper::total(loads))
        }
    }
    EightyOnePercent {
        fn regime(loads: &Loads) -> u64 {
            long_term_if(100 * loads.first > 81 * Paper::total(loads))
        }
    }
    EightyPerThousand {
        fn regime(loads: &Loads) -> u64 {
            long_term_if(1000 * loads.first > 80 * Paper::total(loads))
        }
    }
    PercentRoundedDown {
        fn regime(loads: &Loads) -> u64 {
            long_term_if(100 * loads.first / Paper::total(loads) > 80)
        }
    }
    PercentRoundedUp {
        fn regime(loads: &Loads) -> u64 {
            long_term_if((100 * loads.first).div_ceil(Paper::total(loads)) >= 80)
        }
    }
    PercentToNearest {
        fn regime(loads: &Loads) -> u64 {
            let total = Paper::total(loads);
            long_term_if((200 * loads.first + total) / (2 * total) > 80)
        }
    }
    LineRoundedUp {
        fn regime(loads: &Loads) -> u64 {
            long_term_if(loads.first > (4 * Paper::total(loads)).div_ceil(5))
        }
    }
    ShareOfTheSecondLoad {
        fn regime(loads: &Loads) -> u64 {
            long_term_if(100 * loads.second > 80 * Paper::total(loads))
        }
    }
    FirstAgainstTheSecondLoad {
        fn regime(loads: &Loads) -> u64 {
            long_term_if(100 * loads.first > 80 * loads.second)
        }
    }
    AlwaysLongTerm {
        fn regime(_loads: &Loads) -> u64 {
            LONG_TERM
        }
    }
    AlwaysShortTerm {
        fn regime(_loads: &Loads) -> u64 {
            SHORT_TERM
        }
    }
    RegimesExchanged {
        fn regime(loads: &Loads) -> u64 {
            LONG_TERM + SHORT_TERM - Paper::regime(loads)
        }
    }
    LongTermInCode1 {
        fn regime(loads: &Loads) -> u64 {
            recoded(loads, LONG_TERM, 1)
        }
    }
    ShortTermInCode1 {
        fn regime(loads: &Loads) -> u64 {
            recoded(loads, SHORT_TERM, 1)
        }
    }
    ShortTermInCode4 {
        fn regime(loads: &Loads) -> u64 {
            recoded(loads, SHORT_TERM, 4)
        }
    }
    LongTermInCode9 {
        fn regime(loads: &Loads) -> u64 {
            recoded(loads, LONG_TERM, 9)
        }
    }
    MomentDown {
        fn beam_moment(total: u64, span: u64) -> u64 {
            total * span * span / 8000
        }
    }
    MomentToNearest {
        fn beam_moment(total: u64, span: u64) -> u64 {
            (total * span * span + 4000) / 8000
        }
    }
    MomentAlwaysOneMore {
        fn beam_moment(total: u64, span: u64) -> u64 {
            total * span * span / 8000 + 1
        }
    }
    MomentTwiceTooGreat {
        fn beam_moment(total: u64, span: u64) -> u64 {
            (total * span * span).div_ceil(4000)
        }
    }
    MomentOfABuiltInBeam {
        fn beam_moment(total: u64, span: u64) -> u64 {
            (total * span * span).div_ceil(12_000)
        }
    }
    MomentByEight {
        fn beam_moment(total: u64, span: u64) -> u64 {
            (total * span * span).div_ceil(8)
        }
    }
    SpanNotSquared {
        fn beam_moment(total: u64, span: u64) -> u64 {
            (total * span).div_ceil(8000)
        }
    }
    MomentByTheRoundedShear {
        fn beam_moment(total: u64, span: u64) -> u64 {
            (Paper::beam_shear(total, span) * span).div_ceil(4)
        }
    }
    LoadPerMillimetreFirst {
        fn beam_moment(total: u64, span: u64) -> u64 {
            total.div_ceil(1000) * span * span / 8
        }
    }
    MomentIn32Bits {
        fn beam_moment(total: u64, span: u64) -> u64 {
            u64::from(Paper::beam_moment(total, span) as u32)
        }
    }
    MomentProductIn32Bits {
        fn beam_moment(total: u64, span: u64) -> u64 {
            u64::from((total * span * span) as u32).div_ceil(8000)
        }
    }
    ShearDown {
        fn beam_shear(total: u64, span: u64) -> u64 {
            total * span / 2000
        }
    }
    ShearToNearest {
        fn beam_shear(total: u64, span: u64) -> u64 {
            (total * span + 1000) / 2000
        }
    }
    ShearAlwaysOneMore {
        fn beam_shear(total: u64, span: u64) -> u64 {
            total * span / 2000 + 1
        }
    }
    ShearTwiceTooGreat {
        fn beam_shear(total: u64, span: u64) -> u64 {
            (total * span).div_ceil(1000)
        }
    }
    ShearTwiceTooSmall {
        fn beam_shear(total: u64, span: u64) -> u64 {
            (total * span).div_ceil(4000)
        }
    }
    ShearWithoutSpan {
        fn beam_shear(total: u64, _span: u64) -> u64 {
            total.div_ceil(2)
        }
    }
    ShearIn16Bits {
        fn beam_shear(total: u64, span: u64) -> u64 {
            u64::from(Paper::beam_shear(total, span) as u16)
        }
    }
    RowOfTensionWithBending {
        fn beam_row(beam: &FloorBeam) -> Cells {
            with(beam, KIND, Some(5))
        }
    }
    RowWithoutRegime {
        fn beam_row(beam: &FloorBeam) -> Cells {
            with(beam, REGIME, None)
        }
    }
    RowWithAxialForce {
        fn beam_row(beam: &FloorBeam) -> Cells {
            with(beam, AXIAL, Some(1))
        }
    }
    RowWithSpanAsLength {
        fn beam_row(beam: &FloorBeam) -> Cells {
            with(beam, LENGTH_H, Some(beam.loads.span))
        }
    }
    RowWithoutShear {
        fn beam_row(beam: &FloorBeam) -> Cells {
            with(beam, SHEAR, Some(0))
        }
    }
    RowWithoutMoment {
        fn beam_row(beam: &FloorBeam) -> Cells {
            with(beam, MOMENT, Some(1))
        }
    }
    RowWithMomentAndShearExchanged {
        fn beam_row(beam: &FloorBeam) -> Cells {
            exchanged(beam, MOMENT, SHEAR)
        }
    }
    RowWithWidthAndHeightExchanged {
        fn beam_row(beam: &FloorBeam) -> Cells {
            exchanged(beam, WIDTH, HEIGHT)
        }
    }
    /// As if no share of the load lasted: seen in the verdicts, since the answer keeps the right regime.
    RowAlwaysInShortTerm {
        fn beam_row(beam: &FloorBeam) -> Cells {
            with(beam, REGIME, Some(SHORT_TERM))
        }
    }
    /// Judges by M and Q rounded down, and answers with the right ones.
    JudgedByForcesDown {
        fn beam_row(beam: &FloorBeam) -> Cells {
            let (total, span) = (Paper::total(&beam.loads), beam.loads.span);
            let mut row = with(beam, MOMENT, Some(total * span * span / 8000));
            row[SHEAR - 1] = Some(total * span / 2000);
            row
        }
    }
    PassesForGood {
        fn check_beam(beam: &FloorBeam) -> Result<BeamVerdict, Refusal> {
            Paper::check_beam(beam).map(|mut judged| {
                judged.verdict.passes = true;
                judged
            })
        }
    }
    FailsForGood {
        fn check_beam(beam: &FloorBeam) -> Result<BeamVerdict, Refusal> {
            Paper::check_beam(beam).map(|mut judged| {
                judged.verdict.passes = false;
                judged
            })
        }
    }
    BendingOnly {
        fn check_beam(beam: &FloorBeam) -> Result<BeamVerdict, Refusal> {
            let judged = Paper::check_beam(beam)?;
            let mut bent = Paper::beam_row(beam);
            bent[SHEAR - 1] = Some(0);
            Ok(BeamVerdict { verdict: Paper::check_row(&bent)?, ..judged })
        }
    }
}
