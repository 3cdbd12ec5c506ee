//! What the add-in finds of a row.
use lvl_addin::answer::{Refusal, Verdict};
use lvl_addin::floor_beam::BeamVerdict;
use lvl_addin::sag::SagVerdict;

/// What is found of a row whose strength is judged.
#[derive(Clone, Copy, Debug, PartialEq, Eq)]
pub enum Judgement {
    Member(Verdict),
    FloorBeam(FloorBeam),
}

/// What is found of a floor beam whose strength is judged.
#[derive(Clone, Copy, Debug, PartialEq, Eq)]
pub struct FloorBeam {
    pub strength: BeamVerdict,
    /// Where it is asked for: the verdict on the sag, or why it is refused.
    pub sag: Option<Result<SagVerdict, Refusal>>,
}

/// Why a row is refused.
#[derive(Clone, Copy, Debug, PartialEq, Eq)]
pub enum Refused {
    ByAddin(Refusal),
    /// Not shown to the add-in: a quote is open, so that it is not clear where its field ends.
    OpenQuote,
    /// Not shown to the add-in: a column that holds nothing known is filled.
    ExtraColumn,
}

pub type Judged = Result<Judgement, Refused>;

/// A row's verdict and the check that governs it.
#[derive(Clone, Copy, Debug, PartialEq, Eq)]
pub struct Governing {
    pub passes: bool,
    pub check: Check,
    /// In millionths; 0 where a yes-or-no check fails.
    pub utilisation: u32,
}

#[derive(Clone, Copy, Debug, PartialEq, Eq)]
pub enum Check {
    /// One of a row's, 1 to 11.
    Numbered(u32),
    Sag,
}

/// What governs a row, or why it has no verdict.
pub fn governing(judged: &Judged) -> Result<Governing, Refused> {
    (*judged)?.governing().map_err(Refused::ByAddin)
}

impl Judgement {
    /// The verdict on the strength alone.
    pub fn strength(&self) -> &Verdict {
        match self {
            Judgement::Member(verdict) => verdict,
            Judgement::FloorBeam(beam) => &beam.strength.verdict,
        }
    }

    fn governing(&self) -> Result<Governing, Refusal> {
        match self {
            Judgement::Member(verdict) => Ok(Governing::of_strength(verdict)),
            Judgement::FloorBeam(beam) => beam.governing(),
        }
    }
}

impl FloorBeam {
    /// A beam that fails in strength fails, whatever is asked of its sag; one that passes has no verdict where its sag is refused.
    fn governing(&self) -> Result<Governing, Refusal> {
        let strength = Governing::of_strength(&self.strength.verdict);
        match self.sag {
            Some(Ok(sag)) => Ok(strength.beside(&sag)),
            Some(Err(refusal)) if strength.passes => Err(refusal),
            Some(Err(_)) | None => Ok(strength),
        }
    }
}

impl Governing {
    fn of_strength(verdict: &Verdict) -> Governing {
        Governing {
            passes: verdict.passes,
            check: Check::Numbered(verdict.check),
            utilisation: verdict.utilisation,
        }
    }

    /// The verdict on both: the greater utilisation governs, that of strength among equals.
    fn beside(self, sag: &SagVerdict) -> Governing {
        let governs = sag.utilisation > self.utilisation;
        Governing {
            passes: self.passes && sag.passes,
            check: if governs { Check::Sag } else { self.check },
            utilisation: self.utilisation.max(sag.utilisation),
        }
    }
}
