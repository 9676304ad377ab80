//! Exact fractions.

use core::fmt;

/// One number over another, in lowest terms. Both have 64 bits at either width: a mean is of counts, of which there may
/// be more than 32 bits can number.
///
/// ```
/// use lukaripe::Fraction;
///
/// let share = Fraction { numerator: 3, denominator: 20 };
/// assert_eq!(share.to_string(), "3/20");
/// assert_eq!(share.as_f64(), 0.15);
/// ```
#[derive(Clone, Copy, Debug, PartialEq, Eq, Hash)]
pub struct Fraction {
    /// The number above.
    pub numerator: u64,
    /// The number below, which is not 0.
    pub denominator: u64,
}

impl Fraction {
    pub(crate) fn new(numerator: impl Into<u64>, denominator: impl Into<u64>) -> Fraction {
        Fraction { numerator: numerator.into(), denominator: denominator.into() }
    }

    /// About as much, as floating-point numbers have it. The fraction is exact, and this is not.
    ///
    /// ```
    /// use lukaripe::Fraction;
    ///
    /// assert_eq!(Fraction { numerator: 40, denominator: 3 }.as_f64().round(), 13.0);
    /// ```
    pub fn as_f64(self) -> f64 {
        self.numerator as f64 / self.denominator as f64
    }
}

impl fmt::Display for Fraction {
    fn fmt(&self, out: &mut fmt::Formatter) -> fmt::Result {
        write!(out, "{}/{}", self.numerator, self.denominator)
    }
}
