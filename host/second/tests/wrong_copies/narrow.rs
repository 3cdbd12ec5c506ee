//! Wrong copies of narrowing: before a range is tested, of lengths to 14 bits, of squares and areas to 16; and one that
//! takes the length for the side.
use lvl_addin::answer::Refusal;
use lvl_second::cells::*;
use lvl_second::{Member, Paper, Rules};

/// What is left of a number in 16 bits.
fn in_16_bits(number: u64) -> u64 {
    number % 65_536
}

/// Refusal 4, with one cell narrowed before its range is tested.
fn ranges_of_narrowed(cells: &Cells, number: usize) -> Result<(), Refusal> {
    let mut narrowed = *cells;
    narrowed[number - 1] = cell(cells, number).map(in_16_bits);
    Paper::refuse_outside_range(&narrowed)
}

wrong_copies! { Rules, Checking:
    WidthNarrowedBeforeItsRange {
        fn refuse_outside_range(cells: &Cells) -> Result<(), Refusal> {
            ranges_of_narrowed(cells, WIDTH)
        }
    }
    HeightNarrowedBeforeItsRange {
        fn refuse_outside_range(cells: &Cells) -> Result<(), Refusal> {
            ranges_of_narrowed(cells, HEIGHT)
        }
    }
    LengthHNarrowedBeforeItsRange {
        fn refuse_outside_range(cells: &Cells) -> Result<(), Refusal> {
            ranges_of_narrowed(cells, LENGTH_H)
        }
    }
    LengthBNarrowedBeforeItsRange {
        fn refuse_outside_range(cells: &Cells) -> Result<(), Refusal> {
            ranges_of_narrowed(cells, LENGTH_B)
        }
    }
    SlendernessOfLengthsBelow16384 {
        fn slenderness_holds(length: u64, side: u64, limit: u64) -> bool {
            Paper::slenderness_holds(length % 16_384, side, limit)
        }
    }
    LengthHBelow16384 {
        fn buckling_across_h(member: &Member) -> u64 {
            Paper::buckling_across_h(&Member { length_h: member.length_h % 16_384, ..*member })
        }
    }
    LengthBBelow16384 {
        fn buckling_across_b(member: &Member) -> u64 {
            Paper::buckling_across_b(&Member { length_b: member.length_b % 16_384, ..*member })
        }
    }
    LengthSquaredIn16BitsInSlenderness {
        fn slenderness_holds(length: u64, side: u64, limit: u64) -> bool {
            12 * in_16_bits(length * length) <= limit * limit * side * side
        }
    }
    SideSquaredIn16BitsInSlenderness {
        fn slenderness_holds(length: u64, side: u64, limit: u64) -> bool {
            12 * length * length <= limit * limit * in_16_bits(side * side)
        }
    }
    SideSquaredIn16BitsAtTheTurn {
        fn is_stocky(length: u64, side: u64) -> bool {
            12 * length * length <= 4_900 * in_16_bits(side * side)
        }
    }
    SideSquaredIn16BitsInTheFirstForm {
        fn stocky_phi(length: u64, side: u64) -> u64 {
            1_000_000_u64.saturating_sub((960 * length * length).div_ceil(in_16_bits(side * side).max(1))).max(1)
        }
    }
    SideSquaredIn16BitsInTheSecondForm {
        fn slender_phi(length: u64, side: u64) -> u64 {
            (250_000_000 * in_16_bits(side * side) / (length * length)).max(1)
        }
    }
    LengthSquaredIn16BitsInTheSecondForm {
        fn slender_phi(length: u64, side: u64) -> u64 {
            (250_000_000 * side * side / in_16_bits(length * length).max(1)).max(1)
        }
    }
    SideOfTheLength {
        fn slenderness_holds(length: u64, _side: u64, limit: u64) -> bool {
            Paper::slenderness_holds(length, length, limit)
        }
    }
    AreaIn16Bits {
        fn axial_capacity(width: u64, height: u64, strength: u64) -> u64 {
            (in_16_bits(width * height) * strength / 1_000).max(1)
        }
    }
    ShearAreaIn16Bits {
        fn shear_capacity(width: u64, height: u64, strength: u64) -> u64 {
            (2 * in_16_bits(width * height) * strength / 3_000).max(1)
        }
    }
    HeightSquaredIn16BitsInBending {
        fn bending_capacity(width: u64, height: u64, strength: u64) -> u64 {
            (width * in_16_bits(height * height) * strength / 6_000).max(1)
        }
    }
}
