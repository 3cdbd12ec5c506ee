//! The answers for a floor beam, beside which those on its sag may stand.
use crate::answers::{Answer, CHECK, REFUSAL, REFUSED_CELL, UTILISATION, VERDICT};
use crate::floor_beams::{strength, total_load};
use crate::words;

pub const ALL: [Answer; 9] = [
    VERDICT,
    CHECK,
    UTILISATION,
    REFUSAL,
    REFUSED_CELL,
    TOTAL_LOAD,
    REGIME,
    MOMENT,
    SHEAR,
];

const TOTAL_LOAD: Answer = Answer {
    heading: "total load q in N/m",
    text: |row, judged| {
        let total = total_load(row).filter(|_| judged.is_ok());
        total.map_or(String::new(), |total| total.to_string())
    },
};

const REGIME: Answer = Answer {
    heading: "regime",
    text: |_, judged| {
        let letter = strength(judged).and_then(|beam| words::regime(beam.regime.into()));
        letter.unwrap_or_default().to_owned()
    },
};

const MOMENT: Answer = Answer {
    heading: "moment M in N·mm",
    text: |_, judged| strength(judged).map_or(String::new(), |beam| beam.moment.to_string()),
};

const SHEAR: Answer = Answer {
    heading: "shear force Q in N",
    text: |_, judged| strength(judged).map_or(String::new(), |beam| beam.shear.to_string()),
};
