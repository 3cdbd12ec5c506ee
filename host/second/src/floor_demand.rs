//! The demand on the verdict of a floor beam: a pass is a pass of the unrounded rules, and a fail is one of them too
//! once the forces grow to 1.005, where M and Q themselves are not rounded either. Written from the request alone, in
//! exact fractions, upon the unrounded capacities of [`crate::demand3`].
use crate::demand3::{Cells, Unrounded};
use crate::exact::Ratio;
use lvl_addin::answer::Verdict;
use lvl_addin::floor_beam::BEAM_CELLS;
use lvl_addin::row::CELLS;

/// The numbers of a beam that is not refused: first load, second load, span, cells 2, 4, 5, 6 and 7.
pub type Numbers = [u64; BEAM_CELLS];

/// The checks that a beam has: bending and shear.
const CHECKS: [u32; 2] = [7, 8];

/// The forces at which a fail has to be justified, in thousandths.
const GROWN: u64 = 1005;

/// Whether the demand holds of a judged beam and its verdict; otherwise what breaks it.
///
/// # Panics
/// Where the beam is one that has to be refused.
pub fn keeps(beam: &Numbers, verdict: &Verdict) -> Result<(), String> {
    if verdict.count != 0 {
        return Err(format!("{} dowels in a beam", verdict.count));
    }
    let row = row(beam);
    let beam = UnroundedBeam {
        loads: Loads::of(beam),
        capacities: Unrounded {
            cells: &row,
            thousandths: 1000,
        },
    };
    if verdict.passes {
        beam.every_check_holds()
    } else {
        beam.named_check_fails(verdict.check)
    }
}

/// What of a row its capacities depend on.
fn row(beam: &Numbers) -> Cells {
    let &[_, _, _, grade, moisture, office_factor, width, height] = beam;
    let regime = Loads::of(beam).regime();
    let mut row = [None; CELLS];
    let filled = [2, grade, regime, moisture, office_factor, width, height];
    for (cell, number) in row.iter_mut().zip(filled) {
        *cell = Some(number);
    }
    row
}

/// Loads in N/m and a span in mm. Within their ranges every product below stays under 2^64.
#[derive(Clone, Copy)]
struct Loads {
    first: u64,
    total: u64,
    span: u64,
}

impl Loads {
    fn of(beam: &Numbers) -> Loads {
        let &[first, second, span, ..] = beam;
        Loads {
            first,
            total: first + second,
            span,
        }
    }

    /// The code of Б, where the first load is more than 80 percent of all, or of В.
    fn regime(self) -> u64 {
        if Ratio::new(self.first, self.total) > Ratio::new(80, 100) {
            2
        } else {
            3
        }
    }

    /// M, N·mm.
    fn moment(self) -> Ratio {
        Ratio::new(self.total * self.span.pow(2), 8000)
    }

    /// Q, N.
    fn shear_force(self) -> Ratio {
        Ratio::new(self.total * self.span, 2000)
    }
}

struct UnroundedBeam<'a> {
    loads: Loads,
    capacities: Unrounded<'a>,
}

impl UnroundedBeam<'_> {
    /// Whether a check holds for so many thousandths of the forces.
    fn holds(&self, check: u32, thousandths: u64) -> bool {
        let (force, capacity) = match check {
            7 => (self.loads.moment(), self.capacities.moment_capacity()),
            _ => (self.loads.shear_force(), self.capacities.shear_capacity()),
        };
        force * Ratio::new(thousandths, 1000) <= capacity
    }

    fn every_check_holds(&self) -> Result<(), String> {
        match CHECKS.iter().find(|&&check| !self.holds(check, 1000)) {
            Some(check) => Err(format!("a pass, but check {check} fails unrounded")),
            None => Ok(()),
        }
    }

    fn named_check_fails(&self, check: u32) -> Result<(), String> {
        if !CHECKS.contains(&check) {
            return Err(format!("a fail on check {check}, which no beam has"));
        }
        if self.holds(check, GROWN) {
            return Err(format!(
                "a fail on check {check}, which holds unrounded at {GROWN} thousandths of the forces"
            ));
        }
        Ok(())
    }
}
