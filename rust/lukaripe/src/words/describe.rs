//! Types described by bytes, and the layouts of arrays and slices that they are made of.

use super::exports;
use super::shapes::Placed;
#[cfg(doc)]
use super::{for_repr_c_struct, Refusal, Scalar};
use super::{Layout, Refused, Result, Word};
#[cfg(doc)]
use super::{DESCRIPTION_DEPTH, TAG_ARRAY, TAG_LONG_STRUCT, TAG_SLICE, TAG_STRUCT};

impl Layout {
    /// The layout of the type that the bytes describe, types inside types.
    ///
    /// A description is one part:
    ///
    /// - the code of a [`Scalar`], alone;
    /// - [`TAG_ARRAY`], the count as four bytes, little-endian, and a part, which is the element: an array, as
    ///   [`Layout::for_array`] makes it;
    /// - [`TAG_STRUCT`], the alignment and the packing as one byte each (0: none is asked for; else 1 + k for 2^k), the
    ///   member count as one byte, and so many parts: a struct, as [`for_repr_c_struct`] makes it;
    /// - [`TAG_SLICE`] and a part: a slice, as [`Layout::for_slice_of`] makes it;
    /// - [`TAG_LONG_STRUCT`]: as [`TAG_STRUCT`], but with the member count as two bytes, little-endian.
    ///
    /// ```
    /// use lukaripe::{for_repr_c_struct, Layout, Refusal, Refused, TAG_ARRAY, TAG_SLICE, TAG_STRUCT};
    ///
    /// // #[repr(C)] struct Inner { kind: u8, id: u32 }
    /// let inner = [TAG_STRUCT, 0, 0, 2, 0, 2];
    /// assert_eq!(Layout::read(&inner)?.size(), Some(8));
    ///
    /// // #[repr(C, align(8))] struct Message { ids: [Inner; 3], text: [u8] }
    /// let mut message = vec![TAG_STRUCT, 1 + 3, 0, 2, TAG_ARRAY, 3, 0, 0, 0];
    /// message.extend(inner);
    /// message.extend([TAG_SLICE, 0]);
    /// let layout = Layout::read(&message)?;
    /// assert_eq!(layout.align, 8);
    /// assert_eq!(layout.trailing().unwrap().offset, 24);
    ///
    /// // By hand.
    /// let ids = Layout::for_array(Layout::read(&inner)?, 3)?;
    /// let by_hand = for_repr_c_struct(std::num::NonZeroU64::new(8), None, &[ids, Layout::of_slice::<u8>()])?;
    /// assert_eq!(layout, by_hand);
    ///
    /// // A refusal has the place of a byte: of the one that is missing, or of a struct's tag.
    /// let refused = Refused { refusal: Refusal::DescriptionCut, place: 5 };
    /// assert_eq!(Layout::read(&inner[..5]), Err(refused));
    /// let refused = Refused { refusal: Refusal::MemberAfterTrailing, place: 0 };
    /// assert_eq!(Layout::read(&[TAG_STRUCT, 0, 0, 2, TAG_SLICE, 0, 0]), Err(refused));
    /// # Ok::<(), Refused>(())
    /// ```
    ///
    /// # Errors
    ///
    /// The first that is met in reading. A member is added once its last byte is read, the final padding comes after
    /// the last member, and an element is judged once it is read.
    ///
    /// - [`Refusal::DescriptionCut`], at the first byte that is missing.
    /// - [`Refusal::TagOrPower`], at a tag that is unknown or a power above 63.
    /// - At 32 bits [`Refusal::NumberPassesWidth`], at a power of 32 to 63.
    /// - [`Refusal::NestingTooDeep`], at the tag that opens one part more than [`DESCRIPTION_DEPTH`].
    /// - [`Refusal::ElemTrailing`] and [`Refusal::ArrayPassesMax`], at the tag of the array or slice.
    /// - [`Refusal::AlignAboveMax`], [`Refusal::MemberAfterTrailing`], [`Refusal::RoundingPassesMax`] and
    ///   [`Refusal::MemberPassesMax`], at the tag of the struct.
    /// - [`Refusal::BytesLeftOver`], at the first byte that is left over.
    pub fn read(description: &[u8]) -> Result<Layout, Refused> {
        // SAFETY: the bytes are lent for the call.
        Placed::from(unsafe { exports::lukaripe_read(description.as_ptr(), description.len()) }).layout()
    }

    /// An array of so many elements: alignment, mark and alignment modifier are the element's, also where there are
    /// none, and the size is the product. An element whose size is no multiple of its alignment is taken as it stands.
    ///
    /// ```
    /// use lukaripe::{Layout, Refusal};
    ///
    /// let pair = Layout::for_type(8, 4)?;
    /// assert_eq!(Layout::for_array(pair, 3)?, Layout::for_type(24, 4)?);
    /// assert_eq!(Layout::for_array(pair, 0)?.align, 4);
    ///
    /// assert_eq!(Layout::for_array(Layout::of_slice::<u8>(), 3), Err(Refusal::ElemTrailing));
    /// assert_eq!(Layout::for_array(pair, 1 << 61), Err(Refusal::ArrayPassesMax));
    /// # Ok::<(), Refusal>(())
    /// ```
    ///
    /// # Errors
    ///
    /// [`Refusal::AlignNotPowerOfTwo`] or [`Refusal::RoundingWordZero`] for the element; [`Refusal::ElemTrailing`],
    /// [`Refusal::ArrayPassesMax`].
    pub fn for_array(elem: Layout, count: Word) -> Result<Layout> {
        exports::lukaripe_for_array(elem.words(), count).answer().map(Layout::from_words)
    }

    /// A slice of such elements: as [`Layout::for_slice`] makes it of their size and alignment, with their alignment
    /// modifier.
    ///
    /// ```
    /// use lukaripe::{Layout, Refusal};
    ///
    /// assert_eq!(Layout::for_slice_of(Layout::of::<u32>())?, Layout::of_slice::<u32>());
    ///
    /// let aligned = Layout::new_zst(std::num::NonZeroU64::new(4))?;
    /// assert!(Layout::for_slice_of(aligned)?.has_align_modifier());
    ///
    /// assert_eq!(Layout::for_slice_of(Layout::of_slice::<u8>()), Err(Refusal::ElemTrailing));
    /// # Ok::<(), Refusal>(())
    /// ```
    ///
    /// # Errors
    ///
    /// [`Refusal::AlignNotPowerOfTwo`] or [`Refusal::RoundingWordZero`] for the element; [`Refusal::ElemTrailing`].
    pub fn for_slice_of(elem: Layout) -> Result<Layout> {
        exports::lukaripe_for_slice_of(elem.words()).answer().map(Layout::from_words)
    }
}
