//! What is of the machine that this runs on: layouts of Rust's own types, those of `core::alloc`, and the addresses of
//! slices.

use crate::{Layout, Result, SizeInfo};
use core::error::Error;
use core::fmt;
use core::mem::{align_of, size_of};

// So that each size and alignment is a number here.
const _: () = assert!(usize::BITS <= u64::BITS);

impl Layout {
    /// The layout of a type: [`Layout::for_type`] of its size and alignment.
    ///
    /// It has not the mark, as whether the type has padding is not known. Where it has none,
    /// [`Layout::for_unpadded_type`] of the two numbers, or [`Layout::scalar`], says so. Nor has it the alignment
    /// modifier, which two numbers do not tell: set [`Layout::align_modifier`] where the type has one.
    ///
    /// ```
    /// use lukaripe::{for_repr_c_struct, Layout};
    ///
    /// #[repr(C)]
    /// struct Head {
    ///     id: u32,
    ///     kind: u8,
    /// }
    ///
    /// let head = for_repr_c_struct(None, None, &[Layout::of::<u32>(), Layout::of::<u8>()])?;
    /// assert_eq!(head, Layout::of::<Head>());
    /// # Ok::<(), lukaripe::Refused>(())
    /// ```
    pub fn of<T>() -> Layout {
        Layout::for_type(size_of::<T>() as u64, align_of::<T>() as u64).expect(WHOLE)
    }

    /// The layout of `[T]`: [`Layout::for_slice`] of the size and the alignment of an element.
    ///
    /// ```
    /// use lukaripe::Layout;
    ///
    /// let numbers = Layout::of_slice::<u32>().trailing().expect("a slice");
    /// assert_eq!(numbers.size_for_elems(3)?, size_of::<[u32; 3]>() as u64);
    /// # Ok::<(), lukaripe::Refusal>(())
    /// ```
    pub fn of_slice<T>() -> Layout {
        Layout::for_slice(size_of::<T>() as u64, align_of::<T>() as u64).expect(WHOLE)
    }

    /// [`Layout::front`] by the addresses at which the two slices stand.
    ///
    /// ```
    /// use lukaripe::Layout;
    ///
    /// #[repr(align(4))]
    /// struct Aligned([u8; 12]);
    ///
    /// // A record of two u32 that starts off its boundary, and an aligned copy of it.
    /// let map = Aligned([0, 1, 0, 0, 0, 2, 0, 0, 0, 0, 0, 0]);
    /// let record = &map.0[1..9];
    /// let mut spare = Aligned([0; 12]);
    /// spare.0[..8].copy_from_slice(record);
    ///
    /// let layout = Layout::of_slice::<u32>();
    /// let front = layout.front_of(record, &spare.0[..8]);
    /// assert_eq!(front, [1, 0, 0, 0, 2, 0, 0, 0]);
    /// assert_eq!(front.as_ptr(), spare.0.as_ptr());
    /// ```
    pub fn front_of<'a>(self, map: &'a [u8], spare: &'a [u8]) -> &'a [u8] {
        self.front(map.as_ptr() as u64, map, spare.as_ptr() as u64, spare)
    }
}

/// Why no type is refused.
const WHOLE: &str = "the alignment of a type is a power of two, and its size a multiple of it";

/// The same size and alignment, without the mark and the alignment modifier. The size need not be a multiple of the
/// alignment, so this is not [`Layout::for_type`].
///
/// ```
/// use lukaripe::Layout;
///
/// let block = std::alloc::Layout::from_size_align(5, 4)?;
/// let layout = Layout::from(block);
/// assert_eq!(layout.size(), Some(5));
/// assert_eq!(layout.align, 4);
/// assert_eq!(std::alloc::Layout::try_from(layout)?, block);
/// # Ok::<(), Box<dyn std::error::Error>>(())
/// ```
impl From<core::alloc::Layout> for Layout {
    fn from(block: core::alloc::Layout) -> Layout {
        let size_info = SizeInfo::Sized { size: block.size() as u64 };
        Layout { align: block.align() as u64, size_info, statically_shallow_unpadded: false, align_modifier: false }
    }
}

/// The same size and alignment; `core::alloc` has no marks. A layout that ends in a run of elements has a size at each
/// count only, as [`Trailing::size_for_elems`](crate::Trailing::size_for_elems) gives it.
///
/// ```
/// use lukaripe::{Layout, NoAllocLayout};
///
/// let block = std::alloc::Layout::try_from(Layout::of::<[u32; 2]>())?;
/// assert_eq!(block, std::alloc::Layout::new::<[u32; 2]>());
///
/// let trailing = std::alloc::Layout::try_from(Layout::of_slice::<u32>());
/// assert_eq!(trailing, Err(NoAllocLayout::Trailing));
/// let large = std::alloc::Layout::try_from(Layout::for_type(u64::MAX, 1)?);
/// assert_eq!(large, Err(NoAllocLayout::SizeOrAlign));
/// # Ok::<(), Box<dyn std::error::Error>>(())
/// ```
impl TryFrom<Layout> for core::alloc::Layout {
    type Error = NoAllocLayout;

    fn try_from(layout: Layout) -> Result<core::alloc::Layout, NoAllocLayout> {
        let size = layout.size().ok_or(NoAllocLayout::Trailing)?;
        let size = usize::try_from(size).map_err(|_| NoAllocLayout::SizeOrAlign)?;
        let align = usize::try_from(layout.align).map_err(|_| NoAllocLayout::SizeOrAlign)?;
        core::alloc::Layout::from_size_align(size, align).map_err(|_| NoAllocLayout::SizeOrAlign)
    }
}

/// Why a [`Layout`] is none of `core::alloc`.
#[derive(Clone, Copy, Debug, PartialEq, Eq, Hash)]
#[non_exhaustive]
pub enum NoAllocLayout {
    /// It ends in a run of elements, so that its size hangs on their count.
    Trailing,
    /// The alignment is no power of two, or the size, rounded up to it, is above `isize::MAX`.
    SizeOrAlign,
}

impl fmt::Display for NoAllocLayout {
    fn fmt(&self, out: &mut fmt::Formatter) -> fmt::Result {
        out.pad(match self {
            NoAllocLayout::Trailing => "the layout ends in a run of elements",
            NoAllocLayout::SizeOrAlign => "the alignment is no power of two, or the size is too large",
        })
    }
}

impl Error for NoAllocLayout {}
