//! How many bytes are lent for the strengths of the rows of [`super::Cases`], one number for each. It is no part of the
//! cases, which stay the same whatever entries there are.
use super::random::Random;
use lvl_addin::strengths::STRENGTHS_BYTES;

/// The most that are lent: half as many again as the answer has.
pub const LONGEST: usize = STRENGTHS_BYTES + STRENGTHS_BYTES / 2;

/// The lengths, mostly the right one: always the same sequence.
pub fn lengths() -> impl Iterator<Item = usize> {
    let mut random = Random::new(0x5354_5245_4E47_5448);
    std::iter::repeat_with(move || {
        if random.one_in(12) {
            random.below(LONGEST as u64 + 1) as usize
        } else {
            STRENGTHS_BYTES
        }
    })
}
