//! Whole layouts.

use super::exports::{self, Words};
#[cfg(doc)]
use super::Refusal;
use super::{NonZeroWord, Result, Trailing, Word};

/// A fixed size, or a run of elements at the end.
#[derive(Clone, Copy, Debug, PartialEq, Eq, Hash)]
pub enum SizeInfo {
    /// The layout of a type whose size is known.
    Sized {
        /// The size.
        size: Word,
    },
    /// The layout of a type whose size hangs on the count of its last elements.
    SliceDst(Trailing),
}

/// The layout of a type.
///
/// Any numbers may be put into it. What the functions refuse as a layout is an alignment that is no power of two
/// ([`Refusal::AlignNotPowerOfTwo`]) and a rounding word of 0 ([`Refusal::RoundingWordZero`]).
///
/// An alignment or a packing that is asked for is an `Option<NonZeroU64>`, at 32 bits an `Option<NonZeroU32>`, as their
/// `new` gives it.
#[derive(Clone, Copy, Debug, PartialEq, Eq, Hash)]
pub struct Layout {
    /// The alignment.
    pub align: Word,
    /// The size, or how sizes are worked out.
    pub size_info: SizeInfo,
    /// The mark: no padding is known between the members.
    pub statically_shallow_unpadded: bool,
    /// The alignment modifier, as the Rust Reference calls it: `align` was asked for, of the type or of one in it, at
    /// any depth. The functions that are handed an alignment to ask for set it, those that are handed members or an
    /// element inherit it, and what is made of two numbers lacks it:
    ///
    /// ```
    /// use lukaripe::{Layout, Refusal};
    ///
    /// let element = Layout { align_modifier: true, ..Layout::of::<u8>() };
    /// assert!(Layout::for_slice_of(element)?.align_modifier);
    /// assert!(!Layout::for_slice(1, element.align)?.align_modifier);
    /// # Ok::<(), Refusal>(())
    /// ```
    pub align_modifier: bool,
}

// The kind of a record is the sum of these.
const MARKED: Word = 1;
const TRAILING: Word = 2;
const ALIGN_MODIFIER: Word = 4;

impl Layout {
    /// The six words of the record, whether or not the layout is refused.
    pub(crate) fn words(self) -> Words<6> {
        let (sort, [size, offset, elem_size, word]) = match self.size_info {
            SizeInfo::Sized { size } => (0, [size, 0, 0, 0]),
            SizeInfo::SliceDst(trailing) => (TRAILING, trailing.words().0),
        };
        let mark = if self.statically_shallow_unpadded { MARKED } else { 0 };
        let modifier = if self.align_modifier { ALIGN_MODIFIER } else { 0 };
        Words([self.align, sort + mark + modifier, size, offset, elem_size, word])
    }

    pub(crate) fn from_words([align, kind, size, rest @ ..]: [Word; 6]) -> Layout {
        let [offset, elem_size, word] = rest;
        let size_info = if kind & TRAILING == 0 {
            SizeInfo::Sized { size }
        } else {
            SizeInfo::SliceDst(Trailing::from_words([size, offset, elem_size, word]))
        };
        Layout {
            align,
            size_info,
            statically_shallow_unpadded: kind & MARKED != 0,
            align_modifier: kind & ALIGN_MODIFIER != 0,
        }
    }

    /// The size of a fixed layout; none of one that ends in a run of elements.
    ///
    /// ```
    /// use lukaripe::Layout;
    ///
    /// assert_eq!(Layout::of::<[u32; 2]>().size(), Some(8));
    /// assert_eq!(Layout::of_slice::<u32>().size(), None);
    /// ```
    pub const fn size(self) -> Option<Word> {
        match self.size_info {
            SizeInfo::Sized { size } => Some(size),
            SizeInfo::SliceDst(_) => None,
        }
    }

    /// The run of elements at the end, where there is one.
    ///
    /// ```
    /// use lukaripe::Layout;
    ///
    /// let numbers = Layout::of_slice::<u32>().trailing().expect("a slice");
    /// assert_eq!(numbers.size_for_elems(3)?, 12);
    /// assert_eq!(Layout::of::<u32>().trailing(), None);
    /// # Ok::<(), lukaripe::Refusal>(())
    /// ```
    pub const fn trailing(self) -> Option<Trailing> {
        match self.size_info {
            SizeInfo::Sized { .. } => None,
            SizeInfo::SliceDst(trailing) => Some(trailing),
        }
    }

    /// Whether the type, or one in it at any depth, has an alignment modifier: `align` was asked for, whatever its
    /// number.
    ///
    /// ```
    /// use lukaripe::{for_repr_c_struct, Layout};
    /// use std::num::NonZeroU64;
    ///
    /// // #[repr(C, align(1))] struct Inner { id: u8 }
    /// let inner = for_repr_c_struct(NonZeroU64::new(1), None, &[Layout::of::<u8>()])?;
    /// // #[repr(C)] struct Outer { inner: Inner, length: u32 }
    /// let outer = for_repr_c_struct(None, None, &[inner, Layout::of::<u32>()])?;
    /// assert!(inner.has_align_modifier() && outer.has_align_modifier());
    ///
    /// assert!(!Layout::of::<u32>().has_align_modifier());
    /// # Ok::<(), lukaripe::Refused>(())
    /// ```
    pub const fn has_align_modifier(self) -> bool {
        self.align_modifier
    }

    /// The empty layout, with size 0, the given alignment or 1, and the mark; with a given alignment also with the
    /// alignment modifier.
    ///
    /// ```
    /// use lukaripe::Layout;
    /// use std::num::NonZeroU64;
    ///
    /// let empty = Layout::new_zst(NonZeroU64::new(4))?;
    /// assert_eq!(empty.align, 4);
    /// assert_eq!(empty.size(), Some(0));
    /// assert!(empty.has_align_modifier());
    ///
    /// let plain = Layout::new_zst(None)?;
    /// assert_eq!(plain.align, 1);
    /// assert!(!plain.has_align_modifier());
    /// # Ok::<(), lukaripe::Refusal>(())
    /// ```
    ///
    /// # Errors
    ///
    /// [`Refusal::AlignNotPowerOfTwo`].
    pub fn new_zst(repr_align: Option<NonZeroWord>) -> Result<Layout> {
        exports::lukaripe_new_zst(or_zero(repr_align)).answer().map(Layout::from_words)
    }

    /// A type of this size and alignment, without the mark: whether it has padding is not known.
    ///
    /// ```
    /// use lukaripe::{Layout, Refusal};
    ///
    /// let layout = Layout::for_type(16, 4)?;
    /// assert_eq!(layout.size(), Some(16));
    /// assert!(!layout.statically_shallow_unpadded);
    /// assert_eq!(Layout::for_type(6, 4), Err(Refusal::SizeNotMultipleOfAlign));
    /// # Ok::<(), Refusal>(())
    /// ```
    ///
    /// # Errors
    ///
    /// [`Refusal::AlignNotPowerOfTwo`], then [`Refusal::SizeNotMultipleOfAlign`].
    pub fn for_type(size: Word, align: Word) -> Result<Layout> {
        exports::lukaripe_for_type(size, align).answer().map(Layout::from_words)
    }

    /// A type of this size and alignment that has no padding, with the mark.
    ///
    /// ```
    /// use lukaripe::Layout;
    ///
    /// assert!(Layout::for_unpadded_type(8, 4)?.statically_shallow_unpadded);
    /// # Ok::<(), lukaripe::Refusal>(())
    /// ```
    ///
    /// # Errors
    ///
    /// [`Refusal::AlignNotPowerOfTwo`], then [`Refusal::SizeNotMultipleOfAlign`].
    pub fn for_unpadded_type(size: Word, align: Word) -> Result<Layout> {
        exports::lukaripe_for_unpadded_type(size, align).answer().map(Layout::from_words)
    }

    /// A slice of elements of this size and alignment, with the mark.
    ///
    /// ```
    /// use lukaripe::Layout;
    ///
    /// let words = Layout::for_slice(8, 8)?.trailing().expect("a slice");
    /// assert_eq!(words.size_for_elems(3)?, 24);
    /// # Ok::<(), lukaripe::Refusal>(())
    /// ```
    ///
    /// # Errors
    ///
    /// [`Refusal::AlignNotPowerOfTwo`], then [`Refusal::SizeNotMultipleOfAlign`].
    pub fn for_slice(size: Word, align: Word) -> Result<Layout> {
        exports::lukaripe_for_slice(size, align).answer().map(Layout::from_words)
    }

    /// The layout with one member more, whose alignment is lowered to the packing where one is asked for. It has the
    /// alignment modifier where one of the two has it.
    ///
    /// ```
    /// use lukaripe::{Layout, Refusal};
    /// use std::num::NonZeroU64;
    ///
    /// let byte = Layout::of::<u8>();
    /// assert_eq!(byte.extend(Layout::of::<u32>(), None)?.size(), Some(8));
    /// assert_eq!(byte.extend(Layout::of::<u32>(), NonZeroU64::new(2))?.size(), Some(6));
    ///
    /// let run = Layout::of_slice::<u8>();
    /// assert_eq!(run.extend(byte, None), Err(Refusal::MemberAfterTrailing));
    /// # Ok::<(), Refusal>(())
    /// ```
    ///
    /// # Errors
    ///
    /// [`Refusal::AlignNotPowerOfTwo`] or [`Refusal::RoundingWordZero`] for this layout, then for the member; then
    /// [`Refusal::PackingNotPowerOfTwo`], [`Refusal::AlignAboveMax`], [`Refusal::MemberAfterTrailing`],
    /// [`Refusal::RoundingPassesMax`], [`Refusal::MemberPassesMax`].
    pub fn extend(self, field: Layout, repr_packed: Option<NonZeroWord>) -> Result<Layout> {
        exports::lukaripe_extend(self.words(), field.words(), or_zero(repr_packed)).answer().map(Layout::from_words)
    }

    /// The layout with its final padding: each size is rounded up to the alignment.
    ///
    /// ```
    /// use lukaripe::Layout;
    ///
    /// let members = Layout::of::<u32>().extend(Layout::of::<u8>(), None)?;
    /// assert_eq!(members.size(), Some(5));
    /// assert_eq!(members.pad_to_align()?.size(), Some(8));
    /// # Ok::<(), lukaripe::Refusal>(())
    /// ```
    ///
    /// # Errors
    ///
    /// [`Refusal::AlignNotPowerOfTwo`], [`Refusal::RoundingWordZero`], [`Refusal::RoundingPassesMax`].
    pub fn pad_to_align(self) -> Result<Layout> {
        exports::lukaripe_pad_to_align(self.words()).answer().map(Layout::from_words)
    }

    /// Whether the mark is unset, so that there may be padding between the members.
    ///
    /// ```
    /// use lukaripe::Layout;
    ///
    /// assert!(Layout::for_type(8, 4)?.requires_static_padding()?);
    /// assert!(!Layout::for_unpadded_type(8, 4)?.requires_static_padding()?);
    /// # Ok::<(), lukaripe::Refusal>(())
    /// ```
    ///
    /// # Errors
    ///
    /// [`Refusal::AlignNotPowerOfTwo`], [`Refusal::RoundingWordZero`].
    pub fn requires_static_padding(self) -> Result<bool> {
        exports::lukaripe_requires_static_padding(self.words()).decision()
    }

    /// Whether some count needs padding after the elements. A fixed layout does not.
    ///
    /// ```
    /// use lukaripe::Layout;
    ///
    /// let run = Layout::of_slice::<u8>();
    /// assert!(!run.requires_dynamic_padding()?);
    /// let record = Layout::of::<u32>().extend(run, None)?.pad_to_align()?;
    /// assert!(record.requires_dynamic_padding()?);
    /// # Ok::<(), lukaripe::Refusal>(())
    /// ```
    ///
    /// # Errors
    ///
    /// [`Refusal::AlignNotPowerOfTwo`], [`Refusal::RoundingWordZero`].
    pub fn requires_dynamic_padding(self) -> Result<bool> {
        exports::lukaripe_requires_dynamic_padding(self.words()).decision()
    }
}

/// In C an alignment or a packing of 0 means that none was asked for.
pub(crate) fn or_zero(asked: Option<NonZeroWord>) -> Word {
    asked.map_or(0, NonZeroWord::get)
}
