//! The cases that come one by one by their numbers: the ends of every range, every material, the weakest sections,
//! great numbers.
use super::judged::{around_the_turn, turn};
use super::{Beam, SagCase};
use crate::cells::{GRADE, HEIGHT, MOISTURE, OFFICE_FACTOR, REGIME, WIDTH};
use crate::rows::judged::REGIMES;
use crate::rows::worked::a;
use crate::sag::Sag;

/// A beam that passes: worked row A over 6 m.
pub const GOOD_SAG: Sag = Sag {
    span: 6000,
    moment: 10_000_000,
    limit: 200,
};

pub fn good() -> Beam {
    Beam {
        cells: a(),
        sag: GOOD_SAG,
    }
}

pub fn cases() -> Vec<SagCase> {
    let mut beams = Vec::new();
    beams.extend(range_ends());
    beams.extend(sections());
    beams.extend(materials());
    beams.extend(office_factors());
    beams.extend(weakest_sections());
    beams.extend(most_rounded());
    beams.extend(least_limit_moment());
    beams.extend(great_products());
    beams.extend(great_numbers());
    beams.iter().map(SagCase::of).collect()
}

/// L, Mn and n at the ends of their ranges, next to them and beyond.
fn range_ends() -> impl Iterator<Item = Beam> {
    let spans = [0, 499, 500, 501, 6000, 19_999, 20_000, 20_001];
    let moments = [
        0,
        1,
        2,
        10_000_000,
        9_999_999_999,
        10_000_000_000,
        10_000_000_001,
    ];
    let limits = [0, 99, 100, 101, 200, 499, 500, 501];
    spans.into_iter().flat_map(move |span| {
        moments.into_iter().flat_map(move |moment| {
            limits.map(|limit| {
                good().with_sag(Sag {
                    span,
                    moment,
                    limit,
                })
            })
        })
    })
}

fn of_section(width: u64, height: u64) -> Beam {
    good().with_cell(WIDTH, width).with_cell(HEIGHT, height)
}

fn of_material(grade: u64, regime: u64, moisture: u64) -> Beam {
    good()
        .with_cell(GRADE, grade)
        .with_cell(REGIME, regime)
        .with_cell(MOISTURE, moisture)
}

/// Widths and heights at the ends of their ranges, next to them and beyond, over the ends of the span and with both
/// ends of n: at the turn of the verdict where they are judged.
fn sections() -> impl Iterator<Item = Beam> {
    let widths = [19, 20, 21, 299, 300, 301];
    let heights = [59, 60, 61, 2499, 2500, 2501];
    widths.into_iter().flat_map(move |width| {
        heights.into_iter().flat_map(move |height| {
            let judged = (20..=300).contains(&width) && (60..=2500).contains(&height);
            [(500, 100), (500, 500), (20_000, 100), (20_000, 500)]
                .into_iter()
                .flat_map(move |(span, limit)| {
                    let beam = of_section(width, height).with_sag(Sag {
                        span,
                        limit,
                        ..GOOD_SAG
                    });
                    let beams: Vec<Beam> = if judged {
                        around_the_turn(beam).collect()
                    } else {
                        vec![beam]
                    };
                    beams
                })
        })
    })
}

/// Every grade, regime and moisture, at the turn of the verdict.
fn materials() -> impl Iterator<Item = Beam> {
    (1..=3).flat_map(|grade| {
        REGIMES.into_iter().flat_map(move |regime| {
            (0..=60).flat_map(move |moisture| around_the_turn(of_material(grade, regime, moisture)))
        })
    })
}

/// Every office factor: none of them changes a sag.
fn office_factors() -> impl Iterator<Item = Beam> {
    (500..=1000).flat_map(|office_factor| {
        let beam = good().with_cell(OFFICE_FACTOR, office_factor);
        let moment = turn(&beam);
        [moment, moment + 1].map(|moment| beam.with_moment(moment))
    })
}

/// The weakest section of a grade.
fn weakest(grade: u64) -> Beam {
    of_material(grade, 2, 60)
        .with_cell(WIDTH, 20)
        .with_cell(HEIGHT, 60)
}

/// The weakest section of each grade, where roundings weigh most, at the turn of its verdict over long spans.
fn weakest_sections() -> impl Iterator<Item = Beam> {
    (1..=3).flat_map(|grade| {
        (12_000..=20_000).step_by(16).flat_map(move |span| {
            around_the_turn(weakest(grade).with_sag(Sag {
                span,
                limit: 500,
                ..GOOD_SAG
            }))
        })
    })
}

/// Where all roundings together take the most away of what a beam bears, as a search over small sections has found:
/// around 14,336 mm and n 499, with K40, whose E is no whole number there.
fn most_rounded() -> impl Iterator<Item = Beam> {
    (14_300..=14_500).flat_map(|span| {
        (494..=500).flat_map(move |limit| {
            around_the_turn(weakest(2).with_sag(Sag {
                span,
                limit,
                ..GOOD_SAG
            }))
        })
    })
}

/// The least Mf of all under every moment up to its turn and beyond, and around the cap.
fn least_limit_moment() -> impl Iterator<Item = Beam> {
    let beam = weakest(3).with_sag(Sag {
        span: 20_000,
        moment: 1,
        limit: 500,
    });
    let moments = (1..=2000).chain(19_400..=19_500);
    moments.map(move |moment| beam.with_moment(moment))
}

/// The greatest sections under the greatest moments over the shortest spans, where the moment with its shear factor
/// takes 63 bits.
fn great_products() -> impl Iterator<Item = Beam> {
    (2450..=2500).flat_map(|height| {
        (500..=502).flat_map(move |span| {
            [9_900_000_000, 9_999_999_999, 10_000_000_000].map(|moment| {
                of_section(300, height).with_sag(Sag {
                    span,
                    moment,
                    limit: 100,
                })
            })
        })
    })
}

/// L, Mn and n far above their ranges, up to the greatest numbers that read, and such as are right but for their higher
/// bits.
fn great_numbers() -> impl Iterator<Item = Beam> {
    let far = [
        1 << 16,
        1 << 31,
        1 << 32,
        1 << 33,
        (1 << 34) - 2,
        (1 << 34) - 1,
    ];
    far.into_iter().flat_map(|far| {
        let Sag {
            span,
            moment,
            limit,
        } = GOOD_SAG;
        let beyond = |number: u64| [far, (far + number) % (1 << 34)];
        let spans = beyond(span).map(|span| Sag { span, ..GOOD_SAG });
        let moments = beyond(moment).map(|moment| Sag { moment, ..GOOD_SAG });
        let limits = beyond(limit).map(|limit| Sag { limit, ..GOOD_SAG });
        [spans, moments, limits]
            .into_iter()
            .flatten()
            .map(|sag| good().with_sag(sag))
    })
}
