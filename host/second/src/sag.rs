//! The sag of a simple beam: which rows and sags are taken, the figures, and the verdict.
use crate::cells::{cell, Cells, Grade, Kind, Member, REGIME};
use crate::sag_rules::SagRules;
use lvl_addin::answer::Refusal;
use lvl_addin::sag::{SagVerdict, SAG_CELLS};
use std::ops::RangeInclusive;

/// The cells of a sag as they read: none where one does not.
pub type SagRead = [Option<Option<u64>>; SAG_CELLS];

/// What is asked of a beam.
#[derive(Clone, Copy, Debug, PartialEq, Eq)]
pub struct Sag {
    /// L, mm.
    pub span: u64,
    /// Mn, N·mm: unfactored.
    pub moment: u64,
    /// n: the sag may be the span over this.
    pub limit: u64,
}

/// What E is made of.
#[derive(Clone, Copy, Debug)]
pub struct Elastic {
    /// The modulus of Table В.2а, MPa.
    pub modulus: u64,
    /// e, hundredths.
    pub duration: u64,
    /// w, hundredths.
    pub moisture: u64,
}

/// The figures that a verdict follows from.
#[derive(Clone, Copy, Debug)]
pub struct Figures {
    pub elastic: Elastic,
    /// E, MPa.
    pub design_modulus: u64,
    /// Mf, N·mm.
    pub limit_moment: u64,
    /// Millionths.
    pub shear_factor: u64,
}

/// Whether a row of this kind has a sag to check.
pub fn has_sag(kind: Kind) -> bool {
    kind == Kind::Bending
}

/// The refusal of a row of another kind.
pub fn kind_refusal() -> Refusal {
    Refusal { number: 9, cell: 1 }
}

/// The member whose sag is checked. What the check of a row refuses is refused first.
pub fn sagging_member<R: SagRules>(cells: &Cells) -> Result<Member, Refusal> {
    let member = R::accept(cells)?;
    if R::has_sag(member.kind) {
        Ok(member)
    } else {
        Err(R::kind_refusal())
    }
}

/// The range of L, mm.
pub fn sag_span_range() -> RangeInclusive<u64> {
    500..=20_000
}

/// The range of Mn, N·mm.
pub fn sag_moment_range() -> RangeInclusive<u64> {
    1..=10_000_000_000
}

/// The range of n.
pub fn sag_limit_range() -> RangeInclusive<u64> {
    100..=500
}

/// Whether L, Mn and n are in their ranges.
pub fn sag_fits<R: SagRules>(sag: &Sag) -> bool {
    R::sag_span_range().contains(&sag.span)
        && R::sag_moment_range().contains(&sag.moment)
        && R::sag_limit_range().contains(&sag.limit)
}

/// The refusal of a sag; its cells are none of a row's.
pub fn sag_refusal() -> Refusal {
    Refusal {
        number: 10,
        cell: 0,
    }
}

/// The sag of three cells as they read: what is blank or does not read is outside its range.
pub fn sag<R: SagRules>(read: &SagRead) -> Result<Sag, Refusal> {
    let [span, moment, limit] = read.map(|cell| R::sag_cell(cell).ok_or(R::sag_refusal()));
    let sag = Sag {
        span: span?,
        moment: moment?,
        limit: limit?,
    };
    if R::sag_fits(&sag) {
        Ok(sag)
    } else {
        Err(R::sag_refusal())
    }
}

/// Table В.2а, along the grain, MPa.
pub fn modulus(grade: Grade) -> u64 {
    match grade {
        Grade::K45 => 12_000,
        Grade::K40 => 11_000,
        Grade::K35 => 10_000,
    }
}

/// e of a regime's code, hundredths. Regimes В and Г, whose strengths have one factor, differ here.
pub fn elastic_duration(code: u64) -> u64 {
    match code {
        2 => 75,
        3 => 90,
        _ => 100,
    }
}

/// What E is made of for an accepted row. Its office factor has no part in it.
pub fn elastic<R: SagRules>(cells: &Cells, member: &Member) -> Elastic {
    Elastic {
        modulus: R::modulus(member.grade),
        duration: R::elastic_duration(cell(cells, REGIME).unwrap_or(0)),
        moisture: member.factors.moisture,
    }
}

/// E, MPa.
pub fn design_modulus(elastic: &Elastic) -> u64 {
    elastic.modulus * elastic.duration * elastic.moisture / 10_000
}

/// Mf, N·mm.
pub fn limit_moment(design_modulus: u64, width: u64, height: u64, sag: &Sag) -> u64 {
    4 * design_modulus * width * height.pow(3) / (5 * sag.span * sag.limit)
}

/// What shear adds to the sag, millionths.
pub fn shear_part(height: u64, span: u64) -> u64 {
    (19_200_000 * height.pow(2)).div_ceil(span.pow(2))
}

/// The shear factor, millionths.
pub fn shear_factor<R: SagRules>(height: u64, span: u64) -> u64 {
    1_000_000 + R::shear_part(height, span)
}

/// All figures of an accepted row and a sag.
pub fn figures<R: SagRules>(cells: &Cells, member: &Member, sag: &Sag) -> Figures {
    let elastic = R::elastic(cells, member);
    let design_modulus = R::design_modulus(&elastic);
    Figures {
        elastic,
        design_modulus,
        limit_moment: R::limit_moment(design_modulus, member.width, member.height, sag),
        shear_factor: R::shear_factor(member.height, sag.span),
    }
}

/// Mn with its shear factor against Mf, millionths, rounded up and capped as in a row.
pub fn sag_utilisation<R: SagRules>(moment: u64, figures: &Figures) -> u64 {
    let utilisation = (moment * figures.shear_factor).div_ceil(figures.limit_moment);
    R::capped(u128::from(utilisation))
}

/// The verdict on the sag of an accepted row.
pub fn judge_sag<R: SagRules>(cells: &Cells, member: &Member, sag: &Sag) -> SagVerdict {
    let figures = R::figures(cells, member, sag);
    let utilisation = R::sag_utilisation(sag.moment, &figures);
    SagVerdict {
        passes: R::passes(utilisation),
        utilisation: utilisation as u32,
        modulus: figures.elastic.modulus as u32,
        elastic_duration: figures.elastic.duration as u32,
        moisture: figures.elastic.moisture as u32,
        design_modulus: figures.design_modulus as u32,
        limit_moment: figures.limit_moment,
        shear_factor: figures.shear_factor as u32,
    }
}
