//! Beams whose sag is judged, but for a number that may lie one beyond its range.
use super::Beam;
use crate::cells::{cell, GRADE, HEIGHT, MOISTURE, REGIME, WIDTH};
use crate::rows::judged::{self, REGIMES};
use crate::rows::random::Random;
use crate::sag::{Figures, Sag};
use crate::{Paper, Rules, SagRules};

/// One, in millionths, and the greatest utilisation that is given.
const ONE: u64 = 1_000_000;
const CAP: u64 = 9_999_999;

/// A beam of any sort.
pub fn beam(random: &mut Random) -> Beam {
    let beam = unloaded(random);
    match random.below(12) {
        0 | 1 => at_the_turn(random, beam),
        2 => {
            let weak = weak(random, beam);
            at_the_turn(random, weak)
        }
        3 => {
            let modulus = fractional_modulus(random, beam);
            at_the_turn(random, modulus)
        }
        4 => at_the_caps_turn(random, beam),
        5 => used_exactly(random, beam),
        6 => at_range_ends(random, beam),
        7 => beam.with_moment(any_moment(random)),
        _ => in_proportion(random, beam),
    }
}

/// A beam with a section, a sensible span and limit, and hardly a moment.
fn unloaded(random: &mut Random) -> Beam {
    let cells = judged::row(random, 2, false);
    let height = cell(&cells, HEIGHT).unwrap_or(0);
    let span = match random.below(4) {
        0 => random.between(500, 20_000),
        _ => (height * random.between(2, 30)).clamp(500, 20_000),
    };
    let limit = match random.below(3) {
        0 => random.between(100, 500),
        _ => random.pick(&[120, 150, 200, 250, 300, 400]),
    };
    Beam {
        cells,
        sag: Sag {
            span,
            moment: 1,
            limit,
        },
    }
}

/// The figures of a beam.
fn figures(beam: &Beam) -> Figures {
    let member = Paper::accept(&beam.cells).expect("the row is one that is accepted");
    Paper::figures(&beam.cells, &member, &beam.sag)
}

/// The greatest moment with this utilisation, were it not capped, or the least moment of all.
fn moment_at(figures: &Figures, utilisation: u64) -> u64 {
    let enlarged = u128::from(utilisation) * u128::from(figures.limit_moment);
    let moment = enlarged / u128::from(figures.shear_factor);
    into_range(moment.try_into().unwrap_or(u64::MAX))
}

fn into_range(moment: u64) -> u64 {
    let range = Paper::sag_moment_range();
    moment.clamp(*range.start(), *range.end())
}

/// The greatest moment with which a beam passes.
pub fn turn(beam: &Beam) -> u64 {
    moment_at(&figures(beam), ONE)
}

/// The beam one below its greatest moment, at it, and one and two beyond.
pub fn around_the_turn(beam: Beam) -> impl Iterator<Item = Beam> {
    let turn = turn(&beam);
    (turn.saturating_sub(1).max(1)..=turn + 2).map(move |moment| beam.with_moment(moment))
}

/// The greatest moment with a utilisation of one, or of a millionth less or more, or one to either side of it.
fn at_the_turn(random: &mut Random, beam: Beam) -> Beam {
    let utilisation = random.pick(&[ONE, ONE, ONE, ONE - 1, ONE + 1]);
    let moment = moment_at(&figures(&beam), utilisation);
    beam.with_moment(random.near(moment).max(1))
}

/// The greatest moment with a utilisation at the cap, or a millionth less or more, or one to either side of it.
fn at_the_caps_turn(random: &mut Random, beam: Beam) -> Beam {
    let utilisation = random.pick(&[CAP - 1, CAP, CAP, CAP + 1]);
    let moment = moment_at(&figures(&beam), utilisation);
    beam.with_moment(random.near(moment).max(1))
}

/// A small section of a weak material over a long span, where roundings weigh most.
fn weak(random: &mut Random, beam: Beam) -> Beam {
    let sag = Sag {
        span: random.between(12_000, 20_000),
        limit: random.between(480, 500),
        ..beam.sag
    };
    beam.with_sag(sag)
        .with_cell(GRADE, random.between(2, 3))
        .with_cell(REGIME, random.pick(&[2, 2, 2, 3, 4]))
        .with_cell(MOISTURE, random.between(16, 60))
        .with_cell(WIDTH, random.pick(&[20, 20, 20, 21, 22]))
        .with_cell(HEIGHT, random.pick(&[60, 60, 60, 61, 62]))
}

/// A beam whose E is no whole number before it is rounded: it takes K40 in regime Б, and wet.
fn fractional_modulus(random: &mut Random, beam: Beam) -> Beam {
    beam.with_cell(GRADE, 2)
        .with_cell(REGIME, 2)
        .with_cell(MOISTURE, random.between(16, 60))
}

/// Heights and spans in proportions that make the shear factor a round number, so that Mf is often a multiple of what
/// it divides by.
const PROPORTIONS: [(u64, u64); 6] = [(5, 1), (1, 1), (1, 2), (1, 4), (1, 8), (1, 16)];

/// How many sections are tried for one with a whole moment at such a utilisation.
const TRIED: usize = 60;

/// A beam whose utilisation is one, a half or a quarter before it is rounded up.
fn used_exactly(random: &mut Random, beam: Beam) -> Beam {
    let mut tried = beam;
    for _ in 0..TRIED {
        tried = in_proportions(random, beam);
        let figures = figures(&tried);
        let utilisation = ONE / random.pick(&[1, 1, 2, 4]);
        let enlarged = utilisation * figures.limit_moment;
        let moment = enlarged / figures.shear_factor;
        tried = tried.with_moment(into_range(moment));
        if enlarged % figures.shear_factor == 0 && tried.sag.moment == moment {
            break;
        }
    }
    tried
}

fn in_proportions(random: &mut Random, beam: Beam) -> Beam {
    let (height, span) = random.pick(&PROPORTIONS);
    let least = 60_u64.div_ceil(height).max(500_u64.div_ceil(span));
    let times = random.between(least, (2500 / height).min(20_000 / span));
    let sag = Sag {
        span: span * times,
        ..beam.sag
    };
    beam.with_sag(sag)
        .with_cell(WIDTH, random.between(20, 300))
        .with_cell(HEIGHT, height * times)
        .with_cell(REGIME, random.pick(&REGIMES))
}

/// Any moment, the lesser as often as the greater.
fn any_moment(random: &mut Random) -> u64 {
    let most = 10_u64.pow(random.between(1, 10) as u32);
    random.between(1, most)
}

/// L, Mn and n at the ends of their ranges, and one beyond.
fn at_range_ends(random: &mut Random, beam: Beam) -> Beam {
    let mut sag = Sag {
        moment: turn(&beam),
        ..beam.sag
    };
    let ends = [
        (&mut sag.span, [500, 20_000]),
        (&mut sag.moment, [1, 10_000_000_000]),
        (&mut sag.limit, [100, 500]),
    ];
    for (number, ends) in ends {
        if random.one_in(2) {
            let end = random.pick(&ends);
            *number = random.near(end);
        }
    }
    beam.with_sag(sag)
}

/// A moment around what the beam bears.
fn in_proportion(random: &mut Random, beam: Beam) -> Beam {
    let thousandths = random.between(100, 1500);
    let moment = turn(&beam) * thousandths / 1000;
    beam.with_moment(into_range(moment))
}
