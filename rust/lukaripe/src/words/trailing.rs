//! Layouts that end in a run of elements.

use super::exports::{self, Words};
#[cfg(doc)]
use super::Refusal;
use super::{NoSize, Result, RoundingAlignAndPhase, Word};

/// The run of elements at the end of a layout.
///
/// The size at a count is `size_base` plus what is rounded up to the alignment of the rounding word: its phase and the
/// bytes of the elements. The offset does not enter it.
///
/// ```
/// use lukaripe::{for_repr_c_struct, Layout, RoundingAlignAndPhase, Trailing};
///
/// // #[repr(C)]
/// // struct Message { id: [u32; 2], kind: u8, text: [u8] }
/// let members = [Layout::of::<[u32; 2]>(), Layout::of::<u8>(), Layout::of_slice::<u8>()];
/// let text = Trailing {
///     size_base: 8,
///     offset: 9,
///     elem_size: 1,
///     size_rounding_align_and_phase: RoundingAlignAndPhase::new(4, 1)?,
/// };
/// assert_eq!(for_repr_c_struct(None, None, &members)?.trailing(), Some(text));
/// # Ok::<(), lukaripe::Refused>(())
/// ```
#[derive(Clone, Copy, Debug, PartialEq, Eq, Hash)]
pub struct Trailing {
    /// What comes before the part that is rounded.
    pub size_base: Word,
    /// Where the elements start.
    pub offset: Word,
    /// The size of one element.
    pub elem_size: Word,
    /// How the rest of the size is rounded.
    pub size_rounding_align_and_phase: RoundingAlignAndPhase,
}

impl Trailing {
    pub(crate) fn words(self) -> Words<4> {
        Words([self.size_base, self.offset, self.elem_size, self.size_rounding_align_and_phase.0])
    }

    pub(crate) fn from_words([size_base, offset, elem_size, word]: [Word; 4]) -> Trailing {
        Trailing { size_base, offset, elem_size, size_rounding_align_and_phase: RoundingAlignAndPhase(word) }
    }

    /// The base rounded down to the alignment of the word, plus the phase.
    ///
    /// ```
    /// use lukaripe::{RoundingAlignAndPhase, Trailing};
    ///
    /// let word = RoundingAlignAndPhase::new(4, 1)?;
    /// let text = Trailing { size_base: 8, offset: 9, elem_size: 1, size_rounding_align_and_phase: word };
    /// assert_eq!(text.size_offset()?, 9);
    /// # Ok::<(), lukaripe::Refusal>(())
    /// ```
    ///
    /// # Errors
    ///
    /// [`Refusal::RoundingWordZero`].
    pub fn size_offset(self) -> Result<Word> {
        exports::lukaripe_size_offset(self.words()).number()
    }

    /// The greatest number of trailing bytes whose size is at most `available_bytes`.
    ///
    /// ```
    /// use lukaripe::{Refusal, RoundingAlignAndPhase, Trailing};
    ///
    /// let word = RoundingAlignAndPhase::new(4, 1)?;
    /// let text = Trailing { size_base: 8, offset: 9, elem_size: 1, size_rounding_align_and_phase: word };
    /// assert_eq!(text.max_trailing_bytes(15)?, 3);
    /// assert_eq!(text.max_trailing_bytes(11), Err(Refusal::NoRoom));
    /// # Ok::<(), Refusal>(())
    /// ```
    ///
    /// # Errors
    ///
    /// [`Refusal::RoundingWordZero`], then [`Refusal::NoRoom`].
    pub fn max_trailing_bytes(self, available_bytes: Word) -> Result<Word> {
        exports::lukaripe_max_trailing_bytes(self.words(), available_bytes).number()
    }

    /// The padding after `elems` elements: the size less the end of the elements, modulo 2^64, at 32 bits 2^32.
    ///
    /// ```
    /// use lukaripe::{RoundingAlignAndPhase, Trailing};
    ///
    /// let word = RoundingAlignAndPhase::new(4, 1)?;
    /// let text = Trailing { size_base: 8, offset: 9, elem_size: 1, size_rounding_align_and_phase: word };
    /// assert_eq!(text.padding_for_elems(0)?, 3);
    /// assert_eq!(text.padding_for_elems(3)?, 0);
    /// assert_eq!(text.padding_for_elems(4)?, 3);
    /// # Ok::<(), lukaripe::Refusal>(())
    /// ```
    ///
    /// # Errors
    ///
    /// [`Refusal::RoundingWordZero`].
    pub fn padding_for_elems(self, elems: Word) -> Result<Word> {
        exports::lukaripe_padding_for_elems(self.words(), elems).number()
    }

    /// The size at `elems` elements.
    ///
    /// ```
    /// use lukaripe::{RoundingAlignAndPhase, Trailing};
    ///
    /// let word = RoundingAlignAndPhase::new(4, 1)?;
    /// let text = Trailing { size_base: 8, offset: 9, elem_size: 1, size_rounding_align_and_phase: word };
    /// assert_eq!(text.size_for_elems(3)?, 12);
    /// assert_eq!(text.size_for_elems(4)?, 16);
    /// // Refused a size, ask for the most that has one.
    /// let most = text.size_for_elems(u64::MAX).unwrap_err().greatest.unwrap();
    /// assert_eq!(text.size_for_elems(most)?, u64::MAX - 3);
    /// # Ok::<(), lukaripe::Refusal>(())
    /// ```
    ///
    /// # Errors
    ///
    /// [`Refusal::RoundingWordZero`]; [`Refusal::NoSizeAtZero`] where not even count 0 has a size; then
    /// [`Refusal::NoSize`], with the greatest count that has one.
    pub fn size_for_elems(self, elems: Word) -> Result<Word, NoSize> {
        exports::lukaripe_size_for_elems(self.words(), elems).size()
    }

    /// The layout whose sizes are these with `bytes` more before the rounding, and with another element size.
    ///
    /// ```
    /// use lukaripe::{RoundingAlignAndPhase, Trailing};
    ///
    /// let word = RoundingAlignAndPhase::new(4, 1)?;
    /// let text = Trailing { size_base: 8, offset: 9, elem_size: 1, size_rounding_align_and_phase: word };
    /// let advanced = text.advance(5, 2)?;
    /// assert_eq!(advanced.size_base, 12);
    /// assert_eq!(advanced.elem_size, 2);
    /// assert_eq!(advanced.size_rounding_align_and_phase, RoundingAlignAndPhase::new(4, 2)?);
    /// # Ok::<(), lukaripe::Refusal>(())
    /// ```
    ///
    /// # Errors
    ///
    /// [`Refusal::RoundingWordZero`], then [`Refusal::AdvancePassesMax`].
    pub fn advance(self, bytes: Word, elem_size: Word) -> Result<Trailing> {
        exports::lukaripe_advance(self.words(), bytes, elem_size).answer().map(Trailing::from_words)
    }

    /// Whether the two are found to have the same size at every count. A no does not mean that they have not:
    /// [`Trailing::sizes_agree`] tells.
    ///
    /// ```
    /// use lukaripe::{Refusal, RoundingAlignAndPhase, Trailing};
    ///
    /// let with_phase = |phase| {
    ///     let word = RoundingAlignAndPhase::new(8, phase)?;
    ///     Ok::<_, Refusal>(Trailing { size_base: 0, offset: 0, elem_size: 4, size_rounding_align_and_phase: word })
    /// };
    /// assert!(with_phase(1)?.has_same_size_sequence(with_phase(1)?)?);
    /// // The sizes are equal at every count here too, which is not found.
    /// assert!(!with_phase(1)?.has_same_size_sequence(with_phase(2)?)?);
    /// # Ok::<(), Refusal>(())
    /// ```
    ///
    /// # Errors
    ///
    /// [`Refusal::RoundingWordZero`] for either.
    pub fn has_same_size_sequence(self, other: Trailing) -> Result<bool> {
        exports::lukaripe_has_same_size_sequence(self.words(), other.words()).decision()
    }
}
