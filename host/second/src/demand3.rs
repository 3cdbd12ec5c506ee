//! Demand 3: whatever rounding does, a pass is a pass of the unrounded rules, and a fail is one of them too once the
//! forces grow a little. Written from document 01 and request 5 alone, in exact fractions, as a witness of its own.
use crate::exact::Ratio;
use lvl_addin::answer::Verdict;
use lvl_addin::row::CELLS;

/// The cells of an accepted row, cell 1 first.
pub type Cells = [Option<u64>; CELLS];

const TENSION: u64 = 1;
const BENDING: u64 = 2;
const COMPRESSION: u64 = 3;
const COMPRESSION_WITH_BENDING: u64 = 4;
const TENSION_WITH_BENDING: u64 = 5;

/// One, in millionths.
const ONE: u64 = 1_000_000;

/// Whether demand 3 holds of an accepted row and its verdict, with forces grown to `thousandths` / 1000 where a fail has
/// to be justified; otherwise what breaks it.
///
/// # Panics
/// Where the cells are not those of an accepted row.
pub fn keeps(cells: &Cells, verdict: &Verdict, thousandths: u64) -> Result<(), String> {
    let exact = Unrounded {
        cells,
        thousandths: 1000,
    };
    let grown = Unrounded { cells, thousandths };
    no_joint_no_dowels(&exact, verdict)?;
    if let Some(check) = exact.first_of_layout_and_slenderness_to_fail() {
        return fails_on(check, verdict);
    }
    count_is_between(&exact, &grown, verdict)?;
    if verdict.passes {
        every_check_holds(&exact)
    } else {
        named_check_fails(&grown, verdict.check)
    }
}

fn no_joint_no_dowels(exact: &Unrounded, verdict: &Verdict) -> Result<(), String> {
    if !exact.has_joint() && verdict.count != 0 {
        return Err(format!("{} dowels without a joint", verdict.count));
    }
    Ok(())
}

/// A row whose layout or slenderness does not hold fails on the first such check.
fn fails_on(check: u32, verdict: &Verdict) -> Result<(), String> {
    if verdict.passes || verdict.check != check {
        return Err(format!(
            "check {check} is the first to fail unrounded, and the verdict is {verdict:?}"
        ));
    }
    Ok(())
}

/// A joint has at least the dowels that its force needs, and no more than the grown force needs.
fn count_is_between(exact: &Unrounded, grown: &Unrounded, verdict: &Verdict) -> Result<(), String> {
    if !exact.has_joint() {
        return Ok(());
    }
    let (least, most) = (exact.least_count(), grown.least_count());
    if !(least..=most).contains(&u128::from(verdict.count)) {
        return Err(format!(
            "{} dowels, where {least} to {most} are due",
            verdict.count
        ));
    }
    Ok(())
}

fn every_check_holds(exact: &Unrounded) -> Result<(), String> {
    match exact.checks().find(|&check| !exact.holds(check)) {
        Some(check) => Err(format!("a pass, but check {check} fails unrounded")),
        None => Ok(()),
    }
}

fn named_check_fails(grown: &Unrounded, check: u32) -> Result<(), String> {
    if !grown.checks().any(|own| own == check) {
        return Err(format!(
            "a fail on check {check}, which the row does not have"
        ));
    }
    if grown.holds(check) {
        return Err(format!(
            "a fail on check {check}, which holds unrounded at {} thousandths of the forces",
            grown.thousandths
        ));
    }
    Ok(())
}

/// The rules with every rounding left out, for forces of `thousandths` / 1000 of those in the row.
///
/// For cells within their ranges each product below that is not part of a `Ratio` stays under 2^64.
pub(crate) struct Unrounded<'a> {
    pub(crate) cells: &'a Cells,
    pub(crate) thousandths: u64,
}

impl Unrounded<'_> {
    fn cell(&self, number: usize) -> u64 {
        self.cells[number - 1]
            .unwrap_or_else(|| panic!("an accepted row of this kind has cell {number} filled"))
    }

    fn kind(&self) -> u64 {
        self.cell(1)
    }

    fn width(&self) -> u64 {
        self.cell(6)
    }

    fn height(&self) -> u64 {
        self.cell(7)
    }

    fn area(&self) -> u64 {
        self.width() * self.height()
    }

    fn axial_force(&self) -> Ratio {
        self.force(8)
    }

    fn moment(&self) -> Ratio {
        self.force(9)
    }

    fn shear_force(&self) -> Ratio {
        self.force(10)
    }

    fn force(&self, cell: usize) -> Ratio {
        Ratio::new(self.cell(cell) * self.thousandths, 1000)
    }

    fn has_joint(&self) -> bool {
        self.cells[13].is_some()
    }

    fn side_piece(&self) -> u64 {
        self.cell(14)
    }

    fn dowel(&self) -> u64 {
        self.cell(15)
    }

    fn dowels_across(&self) -> u64 {
        self.cell(16)
    }

    /// The checks that the row has, in order.
    fn checks(&self) -> impl Iterator<Item = u32> + '_ {
        let of_kind: &[u32] = match self.kind() {
            TENSION => &[1, 2, 3, 4, 5, 6],
            BENDING => &[7, 8],
            COMPRESSION => &[2, 3, 9, 10],
            COMPRESSION_WITH_BENDING => &[2, 3, 8, 9, 10, 11],
            TENSION_WITH_BENDING => &[2, 3, 8, 11],
            other => panic!("kind {other}"),
        };
        of_kind.iter().copied().filter(|check| match check {
            1 | 4 | 6 => self.has_joint(),
            3 => self.cell(13) != 4,
            _ => true,
        })
    }

    fn holds(&self, check: u32) -> bool {
        match check {
            1 => self.layout_holds(),
            2 => self.slenderness_holds(self.across_height()),
            3 => self.slenderness_holds(self.across_width()),
            4 => self.joint_length_holds(),
            5 => self.axial_force() <= self.net_tension_capacity(self.width()),
            6 => self.axial_force() <= self.net_tension_capacity(2 * self.side_piece()),
            7 => self.moment() <= self.moment_capacity(),
            8 => self.shear_force() <= self.shear_capacity(),
            9 => self.axial_force() <= self.buckling_capacity(self.across_height()),
            10 => self.axial_force() <= self.buckling_capacity(self.across_width()),
            11 => self.combined_holds(),
            other => panic!("check {other}"),
        }
    }

    fn first_of_layout_and_slenderness_to_fail(&self) -> Option<u32> {
        self.checks()
            .take_while(|&check| check <= 3)
            .find(|&check| !self.holds(check))
    }

    fn layout_holds(&self) -> bool {
        2 * self.height() >= (7 * self.dowels_across() + 5) * self.dowel()
    }

    fn across_height(&self) -> Strut {
        Strut {
            length: self.cell(11),
            side: self.height(),
        }
    }

    fn across_width(&self) -> Strut {
        Strut {
            length: self.cell(12),
            side: self.width(),
        }
    }

    fn slenderness_holds(&self, strut: Strut) -> bool {
        let limit: u64 = match self.cell(13) {
            1 => 120,
            2 | 4 => 150,
            3 | 5 => 200,
            other => panic!("row {other} of Table 16"),
        };
        12 * strut.length.pow(2) <= limit.pow(2) * strut.side.pow(2)
    }

    /// Duration × moisture × office factor, in ten-millionths.
    fn factors(&self) -> u64 {
        let duration = match self.cell(3) {
            1 | 11 => 100,
            2 => 53,
            3 | 4 => 66,
            5 | 6 => 80,
            7 => 92,
            8 => 110,
            10 => 75,
            other => panic!("regime {other}"),
        };
        let moisture = match self.cell(4) {
            0..=12 => 100,
            13..=15 => 90,
            16..=20 => 85,
            _ => 75,
        };
        duration * moisture * self.cell(5)
    }

    /// R, in kPa.
    fn strength(&self, table: Strengths) -> Ratio {
        let grade = self.cell(2) as usize;
        Ratio::new(table[grade - 1] * self.factors(), 10_000_000)
    }

    /// What one dowel carries in one shear plane before a piece is crushed, in mN.
    fn crushing_capacity(&self) -> Ratio {
        let (core, side, dowel) = (self.width(), self.side_piece(), self.dowel());
        let [core_crushing, side_crushing] = [18, 19].map(|number| self.cell(number));
        let term = (core_crushing * core * dowel).min(side_crushing * side * dowel);
        Ratio::new(term * self.factors(), 1_000_000)
    }

    /// The square of what it carries before it bends: of term × √(t × w × o × 100,000) / 100,000, whose root is seldom
    /// a fraction.
    fn square_of_bending_capacity(&self) -> Ratio {
        let (side, dowel) = (self.side_piece(), self.dowel());
        let [bending, bending_of_side, most_bending] = [20, 21, 22].map(|number| self.cell(number));
        let term = (bending * dowel.pow(2) + bending_of_side * side.pow(2))
            .min(most_bending * dowel.pow(2));
        Ratio::new(term, 100_000) * Ratio::new(term, 100_000) * (self.factors() * 100_000)
    }

    /// The least count that suffices against crushing and against bending. Against bending k dowels do where k² times
    /// the square of a capacity is no less than that of the load: only k² is divided out, and no factor's root is taken.
    ///
    /// `ceil` and `root_up` panic on parts above 128 bits, and these fit: the greatest, the numerator of k², is at most
    /// (1005 × 10^8 × 1000 × 100,000)², which is 1.01 × 10^38 of 3.40 × 10^38.
    fn least_count(&self) -> u128 {
        let in_each_plane = self.axial_force() * 1000 / 2;
        let uncrushed = (in_each_plane / self.crushing_capacity()).ceil();
        let square = in_each_plane * in_each_plane / self.square_of_bending_capacity();
        uncrushed.max(square.root_up())
    }

    fn joint_length_holds(&self) -> bool {
        let columns = self
            .least_count()
            .div_ceil(u128::from(self.dowels_across()));
        u128::from(7 * self.dowel()) * (columns + 1) <= u128::from(self.cell(17))
    }

    /// For a piece or pieces of this thickness in all; where layout holds, the holes take less than the height.
    fn net_tension_capacity(&self, thickness: u64) -> Ratio {
        let holes = if self.has_joint() {
            self.dowels_across() * self.dowel()
        } else {
            0
        };
        let net_height = self.height().checked_sub(holes).expect("layout holds");
        self.strength(TENSILE) * (thickness * net_height) / 1000
    }

    /// MR.
    pub(crate) fn moment_capacity(&self) -> Ratio {
        self.strength(FLEXURAL) * (self.area() * self.height()) / 6000
    }

    pub(crate) fn shear_capacity(&self) -> Ratio {
        self.strength(SHEAR) * (2 * self.area()) / 3000
    }

    /// NR, with the strength of the kind's axial force.
    fn axial_capacity(&self) -> Ratio {
        let table = if self.kind() == TENSION_WITH_BENDING {
            TENSILE
        } else {
            COMPRESSIVE
        };
        self.strength(table) * self.area() / 1000
    }

    fn buckling_capacity(&self, strut: Strut) -> Ratio {
        self.axial_capacity() * strut.buckling_factor() / ONE
    }

    fn combined_holds(&self) -> bool {
        let axial = self.axial_force() / self.axial_capacity();
        self.design_moment()
            .is_some_and(|moment| axial + moment / self.moment_capacity() <= Ratio::from(1))
    }

    /// Md; none where compression leaves no stiffness to bend against.
    fn design_moment(&self) -> Option<Ratio> {
        if self.kind() == TENSION_WITH_BENDING {
            return Some(self.moment());
        }
        let euler = self.axial_capacity() * self.across_height().slender_buckling_factor() / ONE;
        let p = self.axial_force() * ONE / euler;
        if p >= Ratio::from(ONE) {
            return None;
        }
        let left = Ratio::from(ONE).checked_sub(p).expect("p is below one");
        Some(self.moment() * ONE / left)
    }
}

/// Table 7 for one stress, in kPa, by grade.
type Strengths = [u64; 3];

const FLEXURAL: Strengths = [39_000, 34_000, 30_000];
const COMPRESSIVE: Strengths = [32_000, 30_000, 27_000];
const TENSILE: Strengths = [31_000, 27_000, 24_000];
const SHEAR: Strengths = [4_100, 3_900, 3_900];

/// A member that may buckle across one of its sides.
#[derive(Clone, Copy)]
struct Strut {
    length: u64,
    side: u64,
}

impl Strut {
    /// φ, in millionths.
    fn buckling_factor(self) -> Ratio {
        let (length, side) = (self.length.pow(2), self.side.pow(2));
        if 12 * length <= 4900 * side {
            Ratio::from(ONE)
                .checked_sub(Ratio::new(960 * length, side))
                .expect("at most 392,000 comes off")
        } else {
            self.slender_buckling_factor()
        }
    }

    /// φ', in millionths: the form for slender members, at any slenderness.
    fn slender_buckling_factor(self) -> Ratio {
        Ratio::new(250 * ONE * self.side.pow(2), self.length.pow(2))
    }
}
