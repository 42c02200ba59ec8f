//! Currents on the two sides of a current transformer, kept apart [02 §1]. What
//! is primary may be a fraction of a mA; nothing is rounded.

use std::cmp::Ordering;
use std::ops::{Add, Div, Mul};

/// `over / under`, exactly.
#[derive(Clone, Copy, Debug)]
pub struct Fraction {
    over: u128,
    under: u128,
}

impl Fraction {
    pub fn is_whole(self) -> bool {
        self.over.is_multiple_of(self.under)
    }

    /// Divided by a whole number that is not 0.
    pub fn over(self, by: u64) -> Fraction {
        Fraction { under: self.under * u128::from(by), ..self }
    }

    /// The greatest whole number not above.
    pub fn down(self) -> u64 {
        u64::try_from(self.over / self.under).expect("fields in range")
    }

    /// The least whole number not below.
    pub fn up(self) -> u64 {
        u64::try_from(self.over.div_ceil(self.under)).expect("fields in range")
    }
}

impl From<u64> for Fraction {
    fn from(number: u64) -> Fraction {
        Fraction { over: number.into(), under: 1 }
    }
}

impl Mul<u64> for Fraction {
    type Output = Fraction;

    fn mul(self, by: u64) -> Fraction {
        Fraction { over: self.over * u128::from(by), ..self }
    }
}

impl Add for Fraction {
    type Output = Fraction;

    fn add(self, other: Fraction) -> Fraction {
        let over = self.over * other.under + other.over * self.under;
        Fraction { over, under: self.under * other.under }
    }
}

/// By one that is not 0.
impl Div for Fraction {
    type Output = Fraction;

    fn div(self, by: Fraction) -> Fraction {
        Fraction { over: self.over * by.under, under: self.under * by.over }
    }
}

/// By multiplying out.
impl PartialOrd for Fraction {
    fn partial_cmp(&self, other: &Fraction) -> Option<Ordering> {
        (self.over * other.under).partial_cmp(&(other.over * self.under))
    }
}

impl PartialEq for Fraction {
    fn eq(&self, other: &Fraction) -> bool {
        self.over * other.under == other.over * self.under
    }
}

/// mA in the line.
#[derive(Clone, Copy, Debug, PartialEq, PartialOrd)]
pub struct Primary(pub Fraction);

/// mA in the relay, where they are keyed.
#[derive(Clone, Copy, Debug, PartialEq, Eq, PartialOrd, Ord)]
pub struct Secondary(pub u64);

/// The rated currents of a transformer, in A.
#[derive(Clone, Copy, Debug, PartialEq, Eq)]
pub struct Ratio {
    pub primary: u64,
    pub secondary: u64,
}

impl Ratio {
    pub fn primary(self, current: Secondary) -> Primary {
        Primary((Fraction::from(current.0) * self.primary).over(self.secondary))
    }

    /// The least current in the relay for one in the line that is not below it.
    pub fn secondary(self, least: Primary) -> Secondary {
        Secondary((least.0 * self.secondary).over(self.primary).up())
    }
}
