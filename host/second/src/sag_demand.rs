//! The demand on the verdict of a sag check: a pass is a pass with nothing rounded, and a fail is one of them too once
//! the moment grows a little. Written from the request alone, in exact fractions.
use crate::demand3::Cells;
use crate::exact::Ratio;

/// By how much a moment grows at which a fail has to be justified, in thousandths: what the request asks for, and what
/// holds as well.
pub const GROWN: [u64; 2] = [1005, 1001];

/// What the sag of an accepted row depends on.
#[derive(Clone, Copy, Debug)]
pub struct Sagging {
    pub grade: u64,
    pub regime: u64,
    /// Percent.
    pub moisture: u64,
    /// b and h, mm.
    pub width: u64,
    pub height: u64,
    /// L, mm.
    pub span: u64,
    /// Mn, N·mm.
    pub moment: u64,
    /// n.
    pub limit: u64,
}

impl Sagging {
    /// What the sag of an accepted row depends on, with L, Mn and n.
    ///
    /// # Panics
    /// Where the row is one that has to be refused.
    pub fn of(row: &Cells, [span, moment, limit]: [u64; 3]) -> Sagging {
        let filled = |number: usize| row[number - 1].expect("an accepted row has a section");
        Sagging {
            grade: filled(2),
            regime: filled(3),
            moisture: filled(4),
            width: filled(6),
            height: filled(7),
            span,
            moment,
            limit,
        }
    }

    /// Whether the demand holds of a verdict, with a fail justified at so many thousandths of the moment; otherwise
    /// what breaks it.
    pub fn keeps(&self, passes: bool, thousandths: u64) -> Result<(), String> {
        if passes && !self.holds(1000) {
            return Err("a pass, but the sag is too great unrounded".into());
        }
        if !passes && self.holds(thousandths) {
            return Err(format!(
                "a fail, but the sag is not too great unrounded at {thousandths} thousandths of the moment"
            ));
        }
        Ok(())
    }

    /// The factor up to which the moment may grow before the sag is too great with nothing rounded. Of a fail it is
    /// above one only where rounding alone has made the sag too great: a fail is justified at every factor above it.
    pub fn reserve(&self) -> Ratio {
        self.limit_moment() / self.enlarged_moment()
    }

    /// Whether the sag is within its limit, for so many thousandths of the moment.
    fn holds(&self, thousandths: u64) -> bool {
        self.enlarged_moment() * Ratio::new(thousandths, 1000) <= self.limit_moment()
    }

    /// Mn with the shear factor, N·mm.
    fn enlarged_moment(&self) -> Ratio {
        let slope = Ratio::new(self.height, self.span);
        let shear_factor = Ratio::from(1) + slope * slope * Ratio::new(192, 10);
        shear_factor * self.moment
    }

    /// Mf, N·mm.
    fn limit_moment(&self) -> Ratio {
        let cube = self.height * self.height * self.height;
        self.design_modulus() * (4 * self.width * cube) / (5 * self.span * self.limit)
    }

    /// E, MPa.
    fn design_modulus(&self) -> Ratio {
        let table_value = match self.grade {
            1 => 12_000,
            2 => 11_000,
            3 => 10_000,
            other => panic!("grade {other} is not known"),
        };
        let duration = match self.regime {
            2 => 75,
            3 => 90,
            _ => 100,
        };
        let moisture = match self.moisture {
            21.. => 75,
            16.. => 85,
            13.. => 90,
            _ => 100,
        };
        Ratio::from(table_value) * Ratio::new(duration, 100) * Ratio::new(moisture, 100)
    }
}
