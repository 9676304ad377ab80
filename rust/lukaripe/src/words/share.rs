//! How much of the sizes at a list of counts is padding.

use super::exports;
use super::shapes::Share;
use super::{Fraction, Refusal, Refused, Result, Trailing, Word};

/// How much of the sizes at a list of counts is padding: what [`Trailing::padding_of_counts`] gives.
#[derive(Clone, Copy, Debug, PartialEq, Eq, Hash)]
pub struct PaddingShare {
    /// The total padding over the total size; 0 over 1 where that is 0.
    pub padding: Fraction,
    /// The mean size.
    pub mean: Fraction,
    /// The greatest padding at one of the counts.
    pub greatest: Word,
    /// The index of the first count that has it.
    pub index: usize,
}

impl Trailing {
    /// How much of the sizes at these counts is padding.
    ///
    /// The padding at a count is its size less the end of its elements, the offset and the elements' bytes; the totals
    /// are exact. Another order of counts that are accepted changes nothing but the index.
    ///
    /// ```
    /// use lukaripe::{Fraction, Refusal, Refused, RoundingAlignAndPhase, Trailing};
    ///
    /// let word = RoundingAlignAndPhase::new(4, 1)?;
    /// let text = Trailing { size_base: 8, offset: 9, elem_size: 1, size_rounding_align_and_phase: word };
    ///
    /// // Sizes 12, 12 and 16, of which 0, 3 and 3 are padding.
    /// let share = text.padding_of_counts(&[3, 0, 4])?;
    /// assert_eq!(share.padding, Fraction { numerator: 3, denominator: 20 });
    /// assert_eq!(share.mean, Fraction { numerator: 40, denominator: 3 });
    /// assert_eq!((share.greatest, share.index), (3, 1));
    ///
    /// // The first count that is refused, and where it stands.
    /// let refused = text.padding_of_counts(&[3, u64::MAX, 4]).unwrap_err();
    /// assert_eq!(refused, Refused { refusal: Refusal::NoSize, place: 1 });
    /// assert_eq!(refused.to_string(), "the size at this count of elements overflows (at 1)");
    /// assert_eq!(text.padding_of_counts(&[]), Err(Refusal::NoCounts.into()));
    /// # Ok::<(), Refused>(())
    /// ```
    ///
    /// # Errors
    ///
    /// - At 0: [`Refusal::RoundingWordZero`], then [`Refusal::NoCounts`] where there are none.
    /// - Then for each count in turn, at its index: [`Refusal::NoSizeAtZero`] or [`Refusal::NoSize`];
    ///   [`Refusal::EndAboveSize`] where the elements end above the size; [`Refusal::SumPassesMax`] where a sum over
    ///   the counts so far overflows.
    pub fn padding_of_counts(self, counts: &[Word]) -> Result<PaddingShare, Refused> {
        // SAFETY: the numbers are lent for the call.
        let told = unsafe { exports::lukaripe_padding_of_counts(self.words(), counts.as_ptr(), counts.len()) };
        let told = Share::from(told);
        match told.refusal {
            0 => Ok(PaddingShare {
                padding: Fraction::new(told.padding_numerator, told.padding_denominator),
                mean: Fraction::new(told.mean_numerator, told.mean_denominator),
                greatest: told.greatest,
                // Below the number of counts.
                index: told.index as usize,
            }),
            number => Err(Refused { refusal: Refusal::told(number), place: told.place }),
        }
    }
}
