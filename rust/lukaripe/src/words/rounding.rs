//! The rounding word.

use super::exports;
#[cfg(doc)]
use super::Refusal;
use super::{Result, Word};

/// The rounding word: an alignment, a power of two, plus a phase below it. Each word but 0 is exactly one such pair.
///
/// Any word may be handed over; 0 is refused where it is used.
#[derive(Clone, Copy, Debug, PartialEq, Eq, Hash)]
pub struct RoundingAlignAndPhase(
    /// The sum of the two.
    pub Word,
);

impl RoundingAlignAndPhase {
    /// The word of an alignment and a phase.
    ///
    /// ```
    /// use lukaripe::{Refusal, RoundingAlignAndPhase};
    ///
    /// assert_eq!(RoundingAlignAndPhase::new(8, 4)?, RoundingAlignAndPhase(12));
    /// assert_eq!(RoundingAlignAndPhase::new(8, 8), Err(Refusal::PhaseNotBelowAlign));
    /// # Ok::<(), Refusal>(())
    /// ```
    ///
    /// # Errors
    ///
    /// [`Refusal::AlignNotPowerOfTwo`], then [`Refusal::PhaseNotBelowAlign`].
    pub fn new(align: Word, phase: Word) -> Result<RoundingAlignAndPhase> {
        exports::lukaripe_rounding_new(align, phase).number().map(RoundingAlignAndPhase)
    }

    /// The alignment and the phase.
    ///
    /// ```
    /// use lukaripe::{Refusal, RoundingAlignAndPhase};
    ///
    /// let (align, phase) = RoundingAlignAndPhase(12).components()?;
    /// assert_eq!(align, 8);
    /// assert_eq!(phase, 4);
    ///
    /// let highest = 1 << 63;
    /// assert_eq!(RoundingAlignAndPhase(u64::MAX).components()?, (highest, highest - 1));
    /// assert_eq!(RoundingAlignAndPhase(0).components(), Err(Refusal::RoundingWordZero));
    /// # Ok::<(), Refusal>(())
    /// ```
    ///
    /// # Errors
    ///
    /// [`Refusal::RoundingWordZero`].
    pub fn components(self) -> Result<(Word, Word)> {
        exports::lukaripe_rounding_components(self.0).answer().map(|[align, phase]| (align, phase))
    }

    /// The alignment alone.
    ///
    /// ```
    /// use lukaripe::RoundingAlignAndPhase;
    ///
    /// assert_eq!(RoundingAlignAndPhase::new(8, 4)?.align()?, 8);
    /// # Ok::<(), lukaripe::Refusal>(())
    /// ```
    ///
    /// # Errors
    ///
    /// [`Refusal::RoundingWordZero`].
    pub fn align(self) -> Result<Word> {
        exports::lukaripe_rounding_align(self.0).number()
    }
}
