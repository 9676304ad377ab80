//! Conversions.

use super::exports::{self, Words};
#[cfg(doc)]
use super::Refusal;
use super::{Cast, Layout, Result, Trailing, Word};
use CastParams::*;

/// How the count of one layout becomes the count of another that has the same size.
#[derive(Clone, Copy, Debug, PartialEq, Eq, Hash)]
pub enum CastParams {
    /// Both are fixed: the count is 0.
    SizedToSized,
    /// The source is fixed: the count is always the same.
    SizedToUnsized {
        /// The count.
        dst_meta: Word,
    },
    /// Count n becomes `offset_delta_elems + n * elem_multiple`.
    UnsizedToUnsized {
        /// The count that 0 becomes.
        offset_delta_elems: Word,
        /// How many elements of the target one of the source is.
        elem_multiple: Word,
    },
}

impl CastParams {
    fn words(self) -> Words<4> {
        Words(match self {
            SizedToSized => [0, 0, 0, 0],
            SizedToUnsized { dst_meta } => [1, 0, 0, dst_meta],
            UnsizedToUnsized { offset_delta_elems, elem_multiple } => [2, offset_delta_elems, elem_multiple, 0],
        })
    }

    pub(crate) fn from_words([kind, offset_delta_elems, elem_multiple, dst_meta]: [Word; 4]) -> CastParams {
        match kind {
            0 => SizedToSized,
            1 => SizedToUnsized { dst_meta },
            _ => UnsizedToUnsized { offset_delta_elems, elem_multiple },
        }
    }

    /// The conversion from `src` to `dst`, where there is one. No count bears on that.
    ///
    /// ```
    /// use lukaripe::{for_repr_c_struct, CastParams, Layout, Refusal};
    ///
    /// // #[repr(C)] struct Wide { head: [u32; 2], rest: [u32] }
    /// let wide = for_repr_c_struct(None, None, &[Layout::of::<[u32; 2]>(), Layout::of_slice::<u32>()])?;
    /// // #[repr(C)] struct Narrow { head: [u16; 2], rest: [u16] }
    /// let narrow = for_repr_c_struct(None, None, &[Layout::of::<[u16; 2]>(), Layout::of_slice::<u16>()])?;
    ///
    /// let params = CastParams::try_compute(wide, narrow)?;
    /// assert_eq!(params, CastParams::UnsizedToUnsized { offset_delta_elems: 2, elem_multiple: 2 });
    /// // The other way there is none, and the refusal says why.
    /// let refusal = CastParams::try_compute(narrow, wide).unwrap_err();
    /// assert_eq!(refusal, Refusal::SourceAlignLower);
    /// assert_eq!(refusal.to_string(), "the source's alignment is lower than the target's");
    ///
    /// let params = CastParams::try_compute(Layout::of::<[u32; 5]>(), wide)?;
    /// assert_eq!(params, CastParams::SizedToUnsized { dst_meta: 3 });
    /// # Ok::<(), lukaripe::Refused>(())
    /// ```
    ///
    /// # Errors
    ///
    /// [`Refusal::AlignNotPowerOfTwo`] or [`Refusal::RoundingWordZero`] for `src`, then for `dst`. Then the first of
    /// these that holds: [`Refusal::SourceAlignLower`]; of two fixed sizes [`Refusal::FixedSizesDiffer`]; from a run of
    /// elements to a fixed size [`Refusal::TrailingToFixed`]; from a fixed size to a run of elements
    /// [`Refusal::SourceNoExactCount`]; between two runs of elements [`Refusal::TargetElemSizeZero`],
    /// [`Refusal::SourceElemSmaller`], [`Refusal::ElemNoMultiple`], [`Refusal::NoShift`]. Of those refused for the last
    /// [`CastParams::try_compute_in`] accepts more.
    pub fn try_compute(src: Layout, dst: Layout) -> Result<CastParams> {
        exports::lukaripe_try_compute(src.words(), dst.words()).answer().map(CastParams::from_words)
    }

    /// The count of the target that has the size of the source at `src_meta`.
    ///
    /// ```
    /// use lukaripe::{CastParams, Refusal};
    ///
    /// let params = CastParams::UnsizedToUnsized { offset_delta_elems: 2, elem_multiple: 2 };
    /// assert_eq!(params.cast_metadata(3)?, 8);
    /// assert_eq!(params.cast_metadata(u64::MAX), Err(Refusal::ConvertedCountPassesMax));
    /// # Ok::<(), Refusal>(())
    /// ```
    ///
    /// # Errors
    ///
    /// [`Refusal::ConvertedCountPassesMax`].
    pub fn cast_metadata(self, src_meta: Word) -> Result<Word> {
        exports::lukaripe_cast_metadata(self.words(), src_meta).number()
    }
}

/// Whether `dst`, advanced by `dst_base` of its elements and given the element size of `src`, is found to have the same
/// size as `src` at every count.
///
/// ```
/// use lukaripe::{size_sequences_match, RoundingAlignAndPhase, Trailing};
///
/// let word = RoundingAlignAndPhase::new(4, 0)?;
/// let src = Trailing { size_base: 8, offset: 8, elem_size: 4, size_rounding_align_and_phase: word };
/// let word = RoundingAlignAndPhase::new(2, 0)?;
/// let dst = Trailing { size_base: 4, offset: 4, elem_size: 2, size_rounding_align_and_phase: word };
/// assert!(size_sequences_match(src, dst, 2)?);
/// assert!(!size_sequences_match(src, dst, 1)?);
/// # Ok::<(), lukaripe::Refusal>(())
/// ```
///
/// # Errors
///
/// [`Refusal::RoundingWordZero`] for either.
pub fn size_sequences_match(src: Trailing, dst: Trailing, dst_base: Word) -> Result<bool> {
    exports::lukaripe_size_sequences_match(src.words(), dst.words(), dst_base).decision()
}

/// What [`convert_and_cast`] gives: the answers of its four calls.
#[derive(Clone, Copy, Debug, PartialEq, Eq, Hash)]
pub struct Carried {
    /// The conversion: [`CastParams::try_compute`].
    pub computed: Result<CastParams>,
    /// The converted count: [`CastParams::cast_metadata`], or why there is no conversion.
    pub count: Result<Word>,
    /// The cast over `bytes_len` bytes: [`Layout::validate_cast_and_convert_metadata`].
    pub first: Result<Cast>,
    /// The cast over `more_len` bytes.
    pub second: Result<Cast>,
}

/// Converts `src_meta` elements of `src` to `dst`, and casts bytes at `addr` to `dst`, as a prefix, over two lengths.
///
/// The answers are those of the four calls. Proved of them together, where there is a conversion and `src` has a size
/// at `src_meta`, a fixed one at 0 alone:
///
/// - There is a converted count, and at it `dst` has the same size.
/// - Where `addr` is aligned for `dst`, and `bytes_len` is at least that size and does not pass the last address, the
///   first cast is granted, with at least that count.
/// - Where also `more_len` is no less and does not pass it either, the second cast is granted, with at least the count
///   of the first.
///
/// ```
/// use lukaripe::{convert_and_cast, for_repr_c_struct, Cast, CastParams, Layout};
///
/// // #[repr(C)] struct Wide { head: [u32; 2], rest: [u32] }
/// let wide = for_repr_c_struct(None, None, &[Layout::of::<[u32; 2]>(), Layout::of_slice::<u32>()])?;
/// // #[repr(C)] struct Narrow { head: [u16; 2], rest: [u16] }
/// let narrow = for_repr_c_struct(None, None, &[Layout::of::<[u16; 2]>(), Layout::of_slice::<u16>()])?;
/// let [source, target] = [wide, narrow].map(|layout| layout.trailing().unwrap());
///
/// let size = source.size_for_elems(3)?;
/// assert_eq!(size, 20);
/// let carried = convert_and_cast(wide, narrow, 3, 0x1000, size, size + 5);
/// assert_eq!(carried.computed?, CastParams::UnsizedToUnsized { offset_delta_elems: 2, elem_multiple: 2 });
/// assert_eq!(carried.count?, 8);
/// assert_eq!(target.size_for_elems(8)?, size);
/// assert_eq!(carried.first?, Cast { count: 8, split: 20 });
/// assert_eq!(carried.second?, Cast { count: 10, split: 24 });
/// # Ok::<(), lukaripe::Refused>(())
/// ```
///
/// A layout that is refused, `src` before `dst`, refuses all four.
pub fn convert_and_cast(
    src: Layout,
    dst: Layout,
    src_meta: Word,
    addr: Word,
    bytes_len: Word,
    more_len: Word,
) -> Carried {
    Carried::told(exports::lukaripe_convert_and_cast(src.words(), dst.words(), src_meta, addr, bytes_len, more_len))
}

impl Carried {
    pub(crate) fn told(told: exports::Carried) -> Carried {
        Carried {
            computed: told.computed.answer().map(CastParams::from_words),
            count: told.count.number(),
            first: Cast::told(told.first),
            second: Cast::told(told.second),
        }
    }
}
