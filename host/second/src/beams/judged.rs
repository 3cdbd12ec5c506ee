//! Beams that are judged, but for a load or a span that may lie one beyond its range.
use super::{floor_beam, Numbers, FIRST_LOAD, HEIGHT, SECOND_LOAD, SPAN, WIDTH};
use crate::cells::{self, cell};
use crate::floor_beam::{LOAD_CELLS, ROW_CELLS};
use crate::rows::forces::{capacity, greatest};
use crate::rows::judged::section;
use crate::rows::random::Random;
use crate::{FloorRules, Member, Paper, Rules};
use lvl_addin::floor_beam::BEAM_CELLS;

/// A beam of any sort.
pub fn beam(random: &mut Random) -> Numbers {
    let beam = unloaded(random);
    match random.below(10) {
        0 => load_at_the_turn(random, beam),
        1 => span_at_the_turn(random, beam),
        2 => moment_at_capacity(random, beam),
        3 => shear_at_capacity(random, beam),
        4 => tie(random, beam),
        5 => at_range_ends(random, beam),
        6 => on_the_line(random, beam),
        _ => in_proportion(random, beam),
    }
}

/// A beam with a section, a sensible span and no load.
fn unloaded(random: &mut Random) -> Numbers {
    let cells = section(random);
    let mut beam = [0; BEAM_CELLS];
    for (number, value) in ROW_CELLS.iter().zip(&mut beam[LOAD_CELLS..]) {
        *value = cell(&cells, *number).unwrap_or(0);
    }
    beam[SPAN] = match random.below(4) {
        0 => random.between(500, 20_000),
        _ => (beam[HEIGHT] * random.between(2, 30)).clamp(500, 20_000),
    };
    beam
}

/// The first load of a total. Each keeps to one regime at every total: В the first two, Б the others.
type Share = fn(u64) -> u64;

const SHARES: [Share; 4] = [
    |_| 0,
    |total| total * 4 / 5,
    |total| total * 4 / 5 + 1,
    |total| total,
];

/// The beam under a total load of which so much is the first.
fn loaded(beam: Numbers, first: u64, total: u64) -> Numbers {
    let mut loaded = beam;
    loaded[FIRST_LOAD] = first.min(total);
    loaded[SECOND_LOAD] = total - loaded[FIRST_LOAD];
    loaded
}

fn with_span(beam: Numbers, span: u64) -> Numbers {
    let mut changed = beam;
    changed[SPAN] = span;
    changed
}

/// Any first load: at the line of 80 percent, near it, or far from it.
fn any_first(random: &mut Random, total: u64) -> u64 {
    match random.below(8) {
        0 => 0,
        1 => total,
        2 | 3 => random.near(total * 4 / 5),
        4 | 5 => total * random.between(78, 82) / 100,
        _ => random.below(total + 1),
    }
}

/// Any total load, the lesser as often as the greater.
fn any_total(random: &mut Random) -> u64 {
    let most = random.pick(&[1000, 10_000, 100_000]);
    random.between(100, most)
}

fn passes(beam: &Numbers) -> bool {
    Paper::check_beam(&floor_beam(beam)).is_ok_and(|judged| judged.verdict.passes)
}

/// The member whose strengths a beam has under loads that are shared out so.
fn member(beam: Numbers, share: Share) -> Member {
    let loaded = floor_beam(&loaded(beam, share(100), 100));
    Paper::accept(&Paper::beam_row(&loaded)).expect("the section is one of an accepted row")
}

/// The total load at which M or Q is a capacity, rounded down.
fn total_for(number: usize, capacity: u64, span: u64) -> u64 {
    match number {
        cells::MOMENT => 8000 * capacity / (span * span),
        _ => 2000 * capacity / span,
    }
}

fn in_total_range(total: u64) -> u64 {
    let range = Paper::total_range();
    total.clamp(*range.start(), *range.end())
}

/// The greatest total load, shared out so, with which the beam passes.
fn turn(beam: Numbers, share: Share) -> u64 {
    let under = |total| loaded(beam, share(total), total);
    greatest(Paper::total_range(), |total| passes(&under(total)))
}

/// The beam at the greatest total load with which it passes, and up to two beyond, however the load is shared out.
pub fn around_the_turn(beam: Numbers) -> impl Iterator<Item = Numbers> {
    SHARES.into_iter().flat_map(move |share| {
        let turn = turn(beam, share);
        (turn - 1..=turn + 2).map(move |total| loaded(beam, share(total), total))
    })
}

/// The greatest total load with which the beam passes, or one to either side.
fn load_at_the_turn(random: &mut Random, beam: Numbers) -> Numbers {
    let share = random.pick(&SHARES);
    let total = random.near(turn(beam, share));
    loaded(beam, share(total), total)
}

/// The greatest span with which the beam passes, or one to either side.
fn span_at_the_turn(random: &mut Random, beam: Numbers) -> Numbers {
    let total = any_total(random);
    let first = any_first(random, total);
    let over = |span| with_span(loaded(beam, first, total), span);
    let turn = greatest(Paper::span_range(), |span| passes(&over(span)));
    over(random.near(turn))
}

/// How many spans are tried for a moment at the capacity.
const SPANS_TRIED: usize = 200;

/// A moment above or below the capacity by less than one, if a span is found for it: it is the rounding up that
/// decides.
fn moment_at_capacity(random: &mut Random, beam: Numbers) -> Numbers {
    let share = random.pick(&SHARES);
    let most = capacity(&member(beam, share), cells::MOMENT);
    for _ in 0..SPANS_TRIED {
        let span = random.between(500, 2000);
        let total = total_for(cells::MOMENT, most, span) + random.below(2);
        let off = (8000 * most).abs_diff(total * span * span);
        if off < 8000 && Paper::total_range().contains(&total) {
            return with_span(loaded(beam, share(total), total), span);
        }
    }
    in_proportion(random, beam)
}

/// A shear force above or below the capacity by less than one, as every span below 2 m has it.
fn shear_at_capacity(random: &mut Random, beam: Numbers) -> Numbers {
    let share = random.pick(&SHARES);
    let span = random.between(500, 1999);
    let most = capacity(&member(beam, share), cells::SHEAR);
    let total = total_for(cells::SHEAR, most, span) + random.below(2);
    if Paper::total_range().contains(&total) {
        with_span(loaded(beam, share(total), total), span)
    } else {
        in_proportion(random, beam)
    }
}

/// For each grade a height and a span at which checks 7 and 8 are used alike: the span is to the height as the
/// bending strength to the shear strength.
const TIES: [(u64, u64); 3] = [(41, 390), (39, 340), (13, 100)];

/// How many beams are tried for one in which roundings leave checks 7 and 8 used alike.
const TIES_TRIED: usize = 40;

/// A beam with which checks 7 and 8 are used alike, or would be without roundings.
fn tie(random: &mut Random, beam: Numbers) -> Numbers {
    let mut tried = beam;
    for _ in 0..TIES_TRIED {
        let proportioned = at_a_tie(random, beam);
        tried = in_proportion(random, proportioned);
        if used_alike(&tried) {
            break;
        }
    }
    tried
}

fn at_a_tie(random: &mut Random, beam: Numbers) -> Numbers {
    let grade = beam[LOAD_CELLS];
    let (height, span) = TIES[grade as usize - 1];
    let least = 60_u64.div_ceil(height).max(500_u64.div_ceil(span));
    let times = random.between(least, (2500 / height).min(20_000 / span));
    let mut tied = with_span(beam, span * times);
    tied[HEIGHT] = height * times;
    tied[WIDTH] = random.between(20, 300);
    tied
}

fn used_alike(beam: &Numbers) -> bool {
    let row = Paper::beam_row(&floor_beam(beam));
    Paper::accept(&row).is_ok_and(|member| Paper::bending(&member) == Paper::shear(&member))
}

/// Totals and spans at the ends of their ranges, and one beyond.
fn at_range_ends(random: &mut Random, beam: Numbers) -> Numbers {
    let end = random.pick(&[100, 100_000]);
    let total = if random.one_in(4) {
        any_total(random)
    } else {
        random.near(end)
    };
    let end = random.pick(&[500, 20_000]);
    let span = if random.one_in(2) {
        beam[SPAN]
    } else {
        random.near(end)
    };
    let first = any_first(random, total);
    with_span(loaded(beam, first, total), span)
}

/// A first load of just 80 percent, or one more or less.
fn on_the_line(random: &mut Random, beam: Numbers) -> Numbers {
    let fifth = any_total(random).div_ceil(5);
    let first = random.near(4 * fifth);
    loaded(beam, first, 5 * fifth)
}

/// Forces around what the beam bears.
fn in_proportion(random: &mut Random, beam: Numbers) -> Numbers {
    let member = member(beam, random.pick(&SHARES));
    let borne = |number| total_for(number, capacity(&member, number), beam[SPAN]);
    let borne = borne(cells::MOMENT).min(borne(cells::SHEAR));
    let thousandths = random.between(100, 1500);
    let total = in_total_range(borne * thousandths / 1000);
    let first = any_first(random, total);
    loaded(beam, first, total)
}
