//! Whole numbers and fractions without rounding and without a sign, for comparisons that have to be exact.
use std::cmp::Ordering;
use std::ops::{Add, Div, Mul};

const LIMBS: usize = 8;

/// A whole number below 2^512, lowest limb first. What does not fit panics: it is never cut off.
#[derive(Clone, Copy, Debug, PartialEq, Eq)]
pub struct Wide([u64; LIMBS]);

impl Wide {
    /// `self - other`, or none where that is below zero.
    pub fn checked_sub(self, other: Wide) -> Option<Wide> {
        let mut limbs = [0; LIMBS];
        let mut borrow = false;
        for (i, limb) in limbs.iter_mut().enumerate() {
            let (once, under) = self.0[i].overflowing_sub(other.0[i]);
            let (twice, under_again) = once.overflowing_sub(u64::from(borrow));
            *limb = twice;
            borrow = under || under_again;
        }
        (!borrow).then_some(Wide(limbs))
    }

    /// The number as 128 bits, or none where it takes more.
    pub fn to_u128(self) -> Option<u128> {
        let low = u128::from(self.0[0]) | u128::from(self.0[1]) << 64;
        self.0[2..].iter().all(|&limb| limb == 0).then_some(low)
    }

    fn is_zero(self) -> bool {
        self.used() == 0
    }

    /// How many limbs there are up to the highest that is not zero.
    fn used(&self) -> usize {
        LIMBS - self.0.iter().rev().take_while(|&&limb| limb == 0).count()
    }
}

impl From<u64> for Wide {
    fn from(number: u64) -> Wide {
        let mut limbs = [0; LIMBS];
        limbs[0] = number;
        Wide(limbs)
    }
}

impl Add for Wide {
    type Output = Wide;

    fn add(self, other: Wide) -> Wide {
        let mut limbs = [0; LIMBS];
        let mut carry = 0;
        for (i, limb) in limbs.iter_mut().enumerate() {
            let sum = u128::from(self.0[i]) + u128::from(other.0[i]) + carry;
            *limb = sum as u64;
            carry = sum >> 64;
        }
        assert!(carry == 0, "a sum takes more than 512 bits");
        Wide(limbs)
    }
}

impl Mul for Wide {
    type Output = Wide;

    fn mul(self, other: Wide) -> Wide {
        let mut limbs = [0; LIMBS];
        let width = other.used();
        for (i, &factor) in self.0[..self.used()].iter().enumerate() {
            let mut carry = 0;
            for (j, &digit) in other.0[..width].iter().enumerate() {
                let product = u128::from(factor) * u128::from(digit) + carry;
                carry = add_at(&mut limbs, i + j, product);
            }
            let rest = add_at(&mut limbs, i + width, carry);
            debug_assert!(
                rest == 0,
                "a limb that is still empty takes the carry whole"
            );
        }
        Wide(limbs)
    }
}

/// Adds to a limb and gives back what the next limb has to take. Past the last limb only zero may be added.
fn add_at(limbs: &mut [u64; LIMBS], at: usize, number: u128) -> u128 {
    match limbs.get_mut(at) {
        Some(limb) => {
            let sum = u128::from(*limb) + number;
            *limb = sum as u64;
            sum >> 64
        }
        None => {
            assert!(number == 0, "a product takes more than 512 bits");
            0
        }
    }
}

impl Ord for Wide {
    fn cmp(&self, other: &Wide) -> Ordering {
        self.0.iter().rev().cmp(other.0.iter().rev())
    }
}

impl PartialOrd for Wide {
    fn partial_cmp(&self, other: &Wide) -> Option<Ordering> {
        Some(self.cmp(other))
    }
}

/// A fraction, compared by cross multiplication and never reduced.
#[derive(Clone, Copy, Debug)]
pub struct Ratio {
    num: Wide,
    den: Wide,
}

impl Ratio {
    /// `num / den`; panics where `den` is zero.
    pub fn new(num: u64, den: u64) -> Ratio {
        Ratio::of(num.into(), den.into())
    }

    fn of(num: Wide, den: Wide) -> Ratio {
        assert!(!den.is_zero(), "a fraction over zero");
        Ratio { num, den }
    }

    /// `self - other`, or none where that is below zero.
    pub fn checked_sub(self, other: Ratio) -> Option<Ratio> {
        let num = (self.num * other.den).checked_sub(other.num * self.den)?;
        Some(Ratio::of(num, self.den * other.den))
    }

    /// The least whole number that is no less.
    pub fn ceil(self) -> u128 {
        let [num, den] = [self.num, self.den].map(|part| {
            part.to_u128()
                .expect("only fractions of 128 bits are divided out")
        });
        num.div_ceil(den)
    }

    /// The least whole number whose square is no less.
    pub fn root_up(self) -> u128 {
        let square = self.ceil();
        let root = square.isqrt();
        root + u128::from(root * root < square)
    }
}

impl From<u64> for Ratio {
    fn from(number: u64) -> Ratio {
        Ratio::new(number, 1)
    }
}

impl Add for Ratio {
    type Output = Ratio;

    fn add(self, other: Ratio) -> Ratio {
        Ratio::of(
            self.num * other.den + other.num * self.den,
            self.den * other.den,
        )
    }
}

impl<T: Into<Ratio>> Mul<T> for Ratio {
    type Output = Ratio;

    fn mul(self, other: T) -> Ratio {
        let other = other.into();
        Ratio::of(self.num * other.num, self.den * other.den)
    }
}

impl<T: Into<Ratio>> Div<T> for Ratio {
    type Output = Ratio;

    fn div(self, other: T) -> Ratio {
        let other = other.into();
        Ratio::of(self.num * other.den, self.den * other.num)
    }
}

impl Ord for Ratio {
    fn cmp(&self, other: &Ratio) -> Ordering {
        (self.num * other.den).cmp(&(other.num * self.den))
    }
}

impl PartialOrd for Ratio {
    fn partial_cmp(&self, other: &Ratio) -> Option<Ordering> {
        Some(self.cmp(other))
    }
}

impl PartialEq for Ratio {
    fn eq(&self, other: &Ratio) -> bool {
        self.cmp(other) == Ordering::Equal
    }
}

impl Eq for Ratio {}
