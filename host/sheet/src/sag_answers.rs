//! The answers on a floor beam's sag, and those on its strength that stand beside them, for a sheet in which a beam asks for it.
use crate::answers::{pass_or_fail, Answer};
use crate::floor_beams::{sag, strength};
use crate::judgement::Judged;
use crate::load_reasons;
use lvl_addin::answer::Refusal;
use lvl_addin::sag::SagVerdict;

pub const ALL: [Answer; 13] = [
    STRENGTH_VERDICT,
    STRENGTH_CHECK,
    STRENGTH_UTILISATION,
    SAG_VERDICT,
    SAG_UTILISATION,
    SAG_REFUSAL,
    SAG_REASON,
    MODULUS,
    DURATION,
    MOISTURE,
    DESIGN_MODULUS,
    LIMIT_MOMENT,
    SHEAR_FACTOR,
];

const STRENGTH_VERDICT: Answer = Answer {
    heading: "strength verdict",
    text: |_, judged| {
        let verdict = strength(judged).map(|beam| pass_or_fail(beam.verdict.passes));
        verdict.unwrap_or_default().to_owned()
    },
};

const STRENGTH_CHECK: Answer = Answer {
    heading: "strength check",
    text: |_, judged| shown(strength(judged).map(|beam| beam.verdict.check)),
};

const STRENGTH_UTILISATION: Answer = Answer {
    heading: "strength utilisation in millionths",
    text: |_, judged| shown(strength(judged).map(|beam| beam.verdict.utilisation)),
};

const SAG_VERDICT: Answer = Answer {
    heading: "sag verdict",
    text: |_, judged| {
        match sag(judged) {
            Some(Ok(sag)) => pass_or_fail(sag.passes),
            Some(Err(_)) => "refused",
            None => "",
        }
        .to_owned()
    },
};

const SAG_UTILISATION: Answer = Answer {
    heading: "sag utilisation in millionths",
    text: |_, judged| shown(verdict(judged).map(|sag| sag.utilisation)),
};

const SAG_REFUSAL: Answer = Answer {
    heading: "sag refusal",
    text: |_, judged| shown(refusal(judged).map(|refusal| refusal.number)),
};

const SAG_REASON: Answer = Answer {
    heading: "why sag is refused",
    text: |row, judged| shown(refusal(judged).and_then(|_| load_reasons::of_sag(row))),
};

const MODULUS: Answer = Answer {
    heading: "modulus of elasticity in MPa",
    text: |_, judged| shown(verdict(judged).map(|sag| sag.modulus)),
};

const DURATION: Answer = Answer {
    heading: "e in hundredths",
    text: |_, judged| shown(verdict(judged).map(|sag| sag.elastic_duration)),
};

const MOISTURE: Answer = Answer {
    heading: "w in hundredths",
    text: |_, judged| shown(verdict(judged).map(|sag| sag.moisture)),
};

const DESIGN_MODULUS: Answer = Answer {
    heading: "design modulus E in MPa",
    text: |_, judged| shown(verdict(judged).map(|sag| sag.design_modulus)),
};

const LIMIT_MOMENT: Answer = Answer {
    heading: "limit moment Mf in N·mm",
    text: |_, judged| shown(verdict(judged).map(|sag| sag.limit_moment)),
};

const SHEAR_FACTOR: Answer = Answer {
    heading: "shear factor in millionths",
    text: |_, judged| shown(verdict(judged).map(|sag| sag.shear_factor)),
};

/// The verdict on the sag, unless it is refused.
fn verdict(judged: &Judged) -> Option<SagVerdict> {
    sag(judged)?.ok()
}

fn refusal(judged: &Judged) -> Option<Refusal> {
    sag(judged)?.err()
}

/// Nothing where there is none.
fn shown(found: Option<impl ToString>) -> String {
    found.map_or(String::new(), |found| found.to_string())
}
