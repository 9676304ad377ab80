//! Rounding helpers.

use super::exports;
#[cfg(doc)]
use super::Refusal;
use super::{Result, Word};

/// Whether `align` is a power of two.
///
/// ```
/// use lukaripe::is_power_of_two;
///
/// assert!(is_power_of_two(8));
/// assert!(!is_power_of_two(0));
/// ```
pub fn is_power_of_two(align: Word) -> bool {
    exports::lukaripe_is_power_of_two(align) != 0
}

/// The smallest number of bytes that takes `len` to a multiple of `align`, modulo 2^64, at 32 bits 2^32.
///
/// ```
/// use lukaripe::padding_needed_for;
///
/// assert_eq!(padding_needed_for(0, 8)?, 0);
/// assert_eq!(padding_needed_for(1, 8)?, 7);
/// assert_eq!(padding_needed_for(u64::MAX, 8)?, 1);
/// # Ok::<(), lukaripe::Refusal>(())
/// ```
///
/// # Errors
///
/// [`Refusal::AlignNotPowerOfTwo`].
pub fn padding_needed_for(len: Word, align: Word) -> Result<Word> {
    exports::lukaripe_padding_needed_for(len, align).number()
}

/// The greatest multiple of `align` that is at most `n`.
///
/// ```
/// use lukaripe::round_down_to_next_multiple_of_alignment;
///
/// assert_eq!(round_down_to_next_multiple_of_alignment(15, 8)?, 8);
/// # Ok::<(), lukaripe::Refusal>(())
/// ```
///
/// # Errors
///
/// [`Refusal::AlignNotPowerOfTwo`].
pub fn round_down_to_next_multiple_of_alignment(n: Word, align: Word) -> Result<Word> {
    exports::lukaripe_round_down_to_next_multiple_of_alignment(n, align).number()
}

/// The larger of two alignments.
///
/// ```
/// assert_eq!(lukaripe::max(2, 8)?, 8);
/// # Ok::<(), lukaripe::Refusal>(())
/// ```
///
/// # Errors
///
/// [`Refusal::AlignNotPowerOfTwo`] for either.
pub fn max(a: Word, b: Word) -> Result<Word> {
    exports::lukaripe_max(a, b).number()
}

/// The smaller of two alignments.
///
/// ```
/// use lukaripe::Refusal;
///
/// assert_eq!(lukaripe::min(2, 8)?, 2);
/// assert_eq!(lukaripe::min(2, 3), Err(Refusal::AlignNotPowerOfTwo));
/// # Ok::<(), Refusal>(())
/// ```
///
/// # Errors
///
/// [`Refusal::AlignNotPowerOfTwo`] for either.
pub fn min(a: Word, b: Word) -> Result<Word> {
    exports::lukaripe_min(a, b).number()
}
