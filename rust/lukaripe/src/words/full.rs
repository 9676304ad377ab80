//! Whether sizes are equal, told in full: the comparison, the normal form, and conversions by them.

use super::exports;
#[cfg(doc)]
use super::Refusal;
use super::{convert_and_cast, size_sequences_match};
use super::{Carried, CastParams, Layout, Mode, Result, RoundingAlignAndPhase, Trailing, Word};

/// What of a trailing layout its sizes show: two layouts have equal sizes at every count exactly when their forms are
/// equal.
///
/// Of all bases, alignments and phases that give the sizes it has the least alignment, then the least phase. It has
/// neither an offset nor an alignment of the whole, and making it twice changes nothing. Forms may be compared and
/// hashed where layouts that differ only in how they are written should count as one.
///
/// ```
/// use lukaripe::{Refusal, RoundingAlignAndPhase, Trailing};
/// use std::collections::HashSet;
///
/// let with_phase = |phase| {
///     let word = RoundingAlignAndPhase::new(8, phase)?;
///     Ok::<_, Refusal>(Trailing { size_base: 0, offset: 0, elem_size: 4, size_rounding_align_and_phase: word })
/// };
/// let forms = [1, 2, 3, 4, 5].map(|phase| with_phase(phase).unwrap().normal_form().unwrap());
/// assert_eq!(forms[0].size_rounding_align_and_phase, RoundingAlignAndPhase::new(8, 1)?);
/// // Phases 1 to 4 have the same sizes at every count, and 5 has others.
/// assert_eq!(forms[..4], [forms[0]; 4]);
/// assert_eq!(HashSet::from(forms).len(), 2);
/// # Ok::<(), Refusal>(())
/// ```
#[derive(Clone, Copy, Debug, PartialEq, Eq, Hash)]
pub struct NormalForm {
    /// What comes before the part that is rounded.
    pub size_base: Word,
    /// The size of one element.
    pub elem_size: Word,
    /// How the rest of the size is rounded.
    pub size_rounding_align_and_phase: RoundingAlignAndPhase,
}

impl NormalForm {
    /// A layout that has this form, whose elements start at `offset`.
    ///
    /// ```
    /// use lukaripe::{RoundingAlignAndPhase, Trailing};
    ///
    /// let word = RoundingAlignAndPhase::new(4, 1)?;
    /// let text = Trailing { size_base: 8, offset: 9, elem_size: 4, size_rounding_align_and_phase: word };
    /// let form = text.normal_form()?;
    /// // Elements of 4 bytes fill blocks of 4, so nothing needs rounding.
    /// let word = RoundingAlignAndPhase::new(1, 0)?;
    /// let plain = Trailing { size_base: 12, size_rounding_align_and_phase: word, ..text };
    /// assert_eq!(form.with_offset(9), plain);
    /// assert_eq!(form.with_offset(9).normal_form()?, form);
    /// # Ok::<(), lukaripe::Refusal>(())
    /// ```
    pub fn with_offset(self, offset: Word) -> Trailing {
        let NormalForm { size_base, elem_size, size_rounding_align_and_phase } = self;
        Trailing { size_base, offset, elem_size, size_rounding_align_and_phase }
    }
}

impl Trailing {
    /// Whether the two have the same size at every count. Sizes above the greatest number count too.
    ///
    /// ```
    /// use lukaripe::{Refusal, RoundingAlignAndPhase, Trailing};
    ///
    /// let with_phase = |phase| {
    ///     let word = RoundingAlignAndPhase::new(8, phase)?;
    ///     Ok::<_, Refusal>(Trailing { size_base: 0, offset: 0, elem_size: 4, size_rounding_align_and_phase: word })
    /// };
    /// assert!(with_phase(1)?.sizes_agree(with_phase(2)?)?);
    /// assert!(!with_phase(1)?.sizes_agree(with_phase(5)?)?);
    /// # Ok::<(), Refusal>(())
    /// ```
    ///
    /// # Errors
    ///
    /// [`Refusal::RoundingWordZero`] for either.
    pub fn sizes_agree(self, other: Trailing) -> Result<bool> {
        exports::lukaripe_sizes_agree(self.words(), other.words()).decision()
    }

    /// The normal form of the layout. Every layout that has a size at count 0 has one.
    ///
    /// ```
    /// use lukaripe::{Refusal, RoundingAlignAndPhase, Trailing};
    ///
    /// let layout = |size_base, phase| {
    ///     let word = RoundingAlignAndPhase::new(8, phase)?;
    ///     Ok::<_, Refusal>(Trailing { size_base, offset: 0, elem_size: 4, size_rounding_align_and_phase: word })
    /// };
    /// // The sizes of phases 1 and 2 are equal, and so are the forms.
    /// assert_eq!(layout(0, 1)?.normal_form()?, layout(0, 2)?.normal_form()?);
    /// // One more block in the base is the same as a phase that fills it.
    /// assert_eq!(layout(0, 5)?.normal_form()?, layout(8, 0)?.normal_form()?);
    /// assert_eq!(layout(u64::MAX, 5)?.normal_form(), Err(Refusal::FormBasePassesMax));
    /// # Ok::<(), Refusal>(())
    /// ```
    ///
    /// # Errors
    ///
    /// [`Refusal::RoundingWordZero`], then [`Refusal::FormBasePassesMax`].
    pub fn normal_form(self) -> Result<NormalForm> {
        let [size_base, elem_size, word] = exports::lukaripe_normal_form(self.words()).answer()?;
        Ok(NormalForm { size_base, elem_size, size_rounding_align_and_phase: RoundingAlignAndPhase(word) })
    }
}

impl CastParams {
    /// The conversion from `src` to `dst` in a mode, where there is one. The shifts that are tried are the same.
    ///
    /// ```
    /// use lukaripe::{CastParams, Layout, Mode, Refusal, RoundingAlignAndPhase, SizeInfo, Trailing};
    ///
    /// let with_phase = |phase| {
    ///     let size_rounding_align_and_phase = RoundingAlignAndPhase::new(4, phase)?;
    ///     let run = Trailing { size_base: 0, offset: 0, elem_size: 2, size_rounding_align_and_phase };
    ///     Ok::<_, Refusal>(Layout { size_info: SizeInfo::SliceDst(run), ..Layout::for_slice(2, 1)? })
    /// };
    /// // Count n of the source has the size of count n + 2 of the target: 4 + 2n, rounded up to a multiple of 4.
    /// let (src, dst) = (with_phase(3)?, with_phase(0)?);
    /// assert_eq!(CastParams::try_compute(src, dst), Err(Refusal::NoShift));
    /// assert_eq!(CastParams::try_compute_in(src, dst, Mode::Ported), Err(Refusal::NoShift));
    /// let params = CastParams::try_compute_in(src, dst, Mode::Full)?;
    /// assert_eq!(params, CastParams::UnsizedToUnsized { offset_delta_elems: 2, elem_multiple: 1 });
    /// # Ok::<(), Refusal>(())
    /// ```
    ///
    /// # Errors
    ///
    /// Those of [`CastParams::try_compute`].
    pub fn try_compute_in(src: Layout, dst: Layout, mode: Mode) -> Result<CastParams> {
        match mode {
            Mode::Ported => CastParams::try_compute(src, dst),
            Mode::Full => {
                exports::lukaripe_try_compute_full(src.words(), dst.words()).answer().map(CastParams::from_words)
            }
        }
    }
}

/// [`size_sequences_match`] in a mode. In [`Mode::Full`] it says yes exactly when `src` has a size at count 0, `dst`
/// can be so advanced, and the sizes then are equal at every count.
///
/// ```
/// use lukaripe::{size_sequences_match_in, Mode, Refusal, RoundingAlignAndPhase, Trailing};
///
/// let with_phase = |phase| {
///     let word = RoundingAlignAndPhase::new(4, phase)?;
///     Ok::<_, Refusal>(Trailing { size_base: 0, offset: 0, elem_size: 2, size_rounding_align_and_phase: word })
/// };
/// assert!(!size_sequences_match_in(with_phase(3)?, with_phase(0)?, 2, Mode::Ported)?);
/// assert!(size_sequences_match_in(with_phase(3)?, with_phase(0)?, 2, Mode::Full)?);
/// assert!(!size_sequences_match_in(with_phase(3)?, with_phase(0)?, 1, Mode::Full)?);
/// # Ok::<(), Refusal>(())
/// ```
///
/// # Errors
///
/// [`Refusal::RoundingWordZero`] for either.
pub fn size_sequences_match_in(src: Trailing, dst: Trailing, dst_base: Word, mode: Mode) -> Result<bool> {
    match mode {
        Mode::Ported => size_sequences_match(src, dst, dst_base),
        Mode::Full => exports::lukaripe_size_sequences_match_full(src.words(), dst.words(), dst_base).decision(),
    }
}

/// [`convert_and_cast`] in a mode. What is proved of it holds in both.
///
/// ```
/// use lukaripe::{convert_and_cast_in, Cast, Layout, Mode, Refusal, RoundingAlignAndPhase, SizeInfo, Trailing};
///
/// let with_phase = |phase| {
///     let size_rounding_align_and_phase = RoundingAlignAndPhase::new(4, phase)?;
///     let run = Trailing { size_base: 0, offset: 0, elem_size: 2, size_rounding_align_and_phase };
///     Ok::<_, Refusal>(Layout { size_info: SizeInfo::SliceDst(run), ..Layout::for_slice(2, 1)? })
/// };
/// let (src, dst) = (with_phase(3)?, with_phase(0)?);
/// let ported = convert_and_cast_in(src, dst, 3, 0x1000, 12, 17, Mode::Ported);
/// assert_eq!(ported.count, Err(Refusal::NoShift));
/// let full = convert_and_cast_in(src, dst, 3, 0x1000, 12, 17, Mode::Full);
/// assert_eq!(full.count?, 5);
/// assert_eq!(full.first?, Cast { count: 6, split: 12 });
/// assert_eq!(full.second?, Cast { count: 8, split: 16 });
/// # Ok::<(), Refusal>(())
/// ```
pub fn convert_and_cast_in(
    src: Layout,
    dst: Layout,
    src_meta: Word,
    addr: Word,
    bytes_len: Word,
    more_len: Word,
    mode: Mode,
) -> Carried {
    match mode {
        Mode::Ported => convert_and_cast(src, dst, src_meta, addr, bytes_len, more_len),
        Mode::Full => {
            let [src, dst] = [src, dst].map(Layout::words);
            Carried::told(exports::lukaripe_convert_and_cast_full(src, dst, src_meta, addr, bytes_len, more_len))
        }
    }
}
