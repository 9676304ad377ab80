//! Why there is no size.

use super::{Refusal, Refused, Word};
use core::error::Error;
use core::fmt;

/// Why there is no size at a count, and the greatest count that has one.
///
/// It becomes a [`Refusal`] or a [`Refused`], so that `?` takes it in a function that gives one of these.
///
/// ```
/// use lukaripe::{NoSize, Refusal, RoundingAlignAndPhase, Trailing};
///
/// let word = RoundingAlignAndPhase::new(4, 1)?;
/// let text = Trailing { size_base: 8, offset: 9, elem_size: 1, size_rounding_align_and_phase: word };
/// let none = text.size_for_elems(u64::MAX).unwrap_err();
/// assert_eq!(none, NoSize { refusal: Refusal::NoSize, greatest: Some(u64::MAX - 12) });
/// assert_eq!(
///     none.to_string(),
///     "the size at this count of elements overflows (the greatest count that has one is 18446744073709551603)",
/// );
/// assert!(text.size_for_elems(u64::MAX - 12).is_ok());
/// # Ok::<(), Refusal>(())
/// ```
#[derive(Clone, Copy, Debug, PartialEq, Eq, Hash)]
pub struct NoSize {
    /// Why.
    pub refusal: Refusal,
    /// With [`Refusal::NoSize`] the greatest count that has a size; else there is none.
    pub greatest: Option<Word>,
}

impl fmt::Display for NoSize {
    fn fmt(&self, out: &mut fmt::Formatter) -> fmt::Result {
        match self.greatest {
            Some(count) => write!(out, "{} (the greatest count that has one is {count})", self.refusal),
            None => write!(out, "{}", self.refusal),
        }
    }
}

impl Error for NoSize {}

impl From<NoSize> for Refusal {
    fn from(none: NoSize) -> Refusal {
        none.refusal
    }
}

impl From<NoSize> for Refused {
    fn from(none: NoSize) -> Refused {
        none.refusal.into()
    }
}
