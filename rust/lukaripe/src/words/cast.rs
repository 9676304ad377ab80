//! Casts.

use super::exports::{self, Told};
#[cfg(doc)]
use super::Refusal;
use super::{CastType, Layout, Result, Word};

/// A granted cast.
#[derive(Clone, Copy, Debug, PartialEq, Eq, Hash)]
pub struct Cast {
    /// The greatest count whose size is at most the length; 0 for a fixed layout.
    pub count: Word,
    /// Where the bytes are divided: after a prefix, before a suffix.
    pub split: Word,
}

impl Cast {
    pub(crate) fn told(told: Told<2>) -> Result<Cast> {
        told.answer().map(|[count, split]| Cast { count, split })
    }
}

impl Layout {
    /// Whether `bytes_len` bytes at `addr` can be seen as this layout, and with what count.
    ///
    /// A prefix is aligned where `addr` is, and a suffix where the end of the bytes is.
    ///
    /// ```
    /// use lukaripe::{for_repr_c_struct, Cast, CastType, Layout, Refusal};
    ///
    /// // #[repr(C)]
    /// // struct Message { id: [u32; 2], kind: u8, text: [u8] }
    /// let members = [Layout::of::<[u32; 2]>(), Layout::of::<u8>(), Layout::of_slice::<u8>()];
    /// let message = for_repr_c_struct(None, None, &members)?;
    ///
    /// let prefix = |addr, len| message.validate_cast_and_convert_metadata(addr, len, CastType::Prefix);
    /// assert_eq!(prefix(0, 15)?, Cast { count: 3, split: 12 });
    /// assert_eq!(prefix(0, 16)?, Cast { count: 7, split: 16 });
    /// assert_eq!(prefix(0, 11), Err(Refusal::CastTooSmall));
    /// assert_eq!(prefix(2, 16), Err(Refusal::CastNotAligned));
    ///
    /// let suffix = |addr, len| message.validate_cast_and_convert_metadata(addr, len, CastType::Suffix);
    /// assert_eq!(suffix(1, 15)?, Cast { count: 3, split: 3 });
    /// # Ok::<(), lukaripe::Refused>(())
    /// ```
    ///
    /// # Errors
    ///
    /// [`Refusal::AlignNotPowerOfTwo`], [`Refusal::RoundingWordZero`], [`Refusal::CastElemSizeZero`],
    /// [`Refusal::AddressPassesMax`], [`Refusal::CastNotAligned`], [`Refusal::CastTooSmall`].
    pub fn validate_cast_and_convert_metadata(self, addr: Word, bytes_len: Word, cast_type: CastType) -> Result<Cast> {
        let suffix = cast_type == CastType::Suffix;
        Cast::told(exports::lukaripe_validate_cast_and_convert_metadata(self.words(), addr, bytes_len, suffix))
    }

    /// The greatest count whose size is exactly `size`.
    ///
    /// ```
    /// use lukaripe::{for_repr_c_struct, Layout, Refusal};
    ///
    /// // #[repr(C)]
    /// // struct Message { id: [u32; 2], kind: u8, text: [u8] }
    /// let members = [Layout::of::<[u32; 2]>(), Layout::of::<u8>(), Layout::of_slice::<u8>()];
    /// let message = for_repr_c_struct(None, None, &members)?;
    /// assert_eq!(message.metadata_for_exact_size(16)?, 7);
    /// assert_eq!(message.metadata_for_exact_size(15), Err(Refusal::NoExactCount));
    /// # Ok::<(), lukaripe::Refused>(())
    /// ```
    ///
    /// # Errors
    ///
    /// [`Refusal::AlignNotPowerOfTwo`], [`Refusal::RoundingWordZero`], then [`Refusal::NoExactCount`], which also comes
    /// of a fixed layout and of elements of size 0.
    pub fn metadata_for_exact_size(self, size: Word) -> Result<Word> {
        exports::lukaripe_metadata_for_exact_size(self.words(), size).number()
    }
}
