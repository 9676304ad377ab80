//! A layout that is built member by member.

use super::exports::{self, Words};
use super::layout::or_zero;
#[cfg(doc)]
use super::{compose, for_repr_c_struct};
use super::{Layout, NonZeroWord, Refusal, Result};

/// A `repr(C)` struct whose members are added one by one, as its maker types them.
///
/// After any run of additions [`Working::layout`] is what [`compose`] gives of the members that were accepted, under
/// the same alignment and packing, and [`Working::padded`] what [`for_repr_c_struct`] gives. An addition is refused
/// exactly where [`compose`] would refuse that member behind the accepted ones, for the same cause, and then alters
/// nothing.
///
/// ```
/// use lukaripe::{compose, for_repr_c_struct, Layout, Refusal, Refused, Working};
///
/// let [id, kind] = [Layout::of::<u32>(), Layout::of::<u8>()];
/// let text = Layout::of_slice::<u8>();
///
/// let mut template = Working::begin(None, None)?;
/// template.add(id)?;
/// template.add(kind)?;
/// assert_eq!(template.layout(), compose(None, None, &[id, kind])?);
///
/// // A member that has no room is refused, as the composition refuses it, and is as if it had not come.
/// let huge = Layout::for_type(u64::MAX, 1)?;
/// let refused = Refused { refusal: Refusal::MemberPassesMax, place: 2 };
/// assert_eq!(compose(None, None, &[id, kind, huge]), Err(refused));
/// assert_eq!(template.add(huge), Err(refused.refusal));
/// assert_eq!(template.layout(), compose(None, None, &[id, kind])?);
///
/// template.add(text)?;
/// assert_eq!(template.layout(), compose(None, None, &[id, kind, text])?);
/// assert_eq!(template.padded()?, for_repr_c_struct(None, None, &[id, kind, text])?);
///
/// // Nothing comes after a run of elements.
/// assert_eq!(template.add(kind), Err(Refusal::MemberAfterTrailing));
/// assert_eq!(template.padded()?, for_repr_c_struct(None, None, &[id, kind, text])?);
/// # Ok::<(), Refused>(())
/// ```
#[derive(Clone, Copy, Debug, PartialEq, Eq, Hash)]
pub struct Working {
    layout: Layout,
    repr_packed: Option<NonZeroWord>,
}

impl Working {
    /// No members, with the given alignment or 1. The packing is kept for all additions, and is looked at when a member
    /// is added.
    ///
    /// ```
    /// use lukaripe::{Layout, Refusal, Working};
    /// use std::num::NonZeroU64;
    ///
    /// let empty = Working::begin(NonZeroU64::new(8), NonZeroU64::new(2))?;
    /// assert_eq!(empty.layout(), Layout::new_zst(NonZeroU64::new(8))?);
    /// assert_eq!(Working::begin(NonZeroU64::new(3), None), Err(Refusal::AlignNotPowerOfTwo));
    ///
    /// let mut packed = Working::begin(None, NonZeroU64::new(3))?;
    /// assert_eq!(packed.add(Layout::of::<u8>()), Err(Refusal::PackingNotPowerOfTwo));
    /// assert_eq!(packed.layout(), Layout::new_zst(None)?);
    /// # Ok::<(), Refusal>(())
    /// ```
    ///
    /// # Errors
    ///
    /// [`Refusal::AlignNotPowerOfTwo`].
    pub fn begin(repr_align: Option<NonZeroWord>, repr_packed: Option<NonZeroWord>) -> Result<Working> {
        let layout = exports::lukaripe_working_begin(or_zero(repr_align)).answer().map(Layout::from_words)?;
        Ok(Working { layout, repr_packed })
    }

    /// Goes on from a layout before its final padding, as [`Working::layout`] gave it, with the packing that it was
    /// built with. It may be any: each addition tests it first.
    ///
    /// ```
    /// use lukaripe::{Layout, Refusal, Working};
    ///
    /// let mut template = Working::begin(None, None)?;
    /// template.add(Layout::of::<u8>())?;
    /// let stored = template.layout().to_bytes()?;
    ///
    /// let mut again = Working::from_layout(Layout::from_bytes(&stored)?, None);
    /// again.add(Layout::of::<u32>())?;
    /// assert_eq!(again.layout().size(), Some(8));
    ///
    /// let mut odd = Working::from_layout(Layout { align: 3, ..Layout::of::<u8>() }, None);
    /// assert_eq!(odd.add(Layout::of::<u8>()), Err(Refusal::AlignNotPowerOfTwo));
    /// # Ok::<(), Refusal>(())
    /// ```
    pub const fn from_layout(layout: Layout, repr_packed: Option<NonZeroWord>) -> Working {
        Working { layout, repr_packed }
    }

    /// Adds a member.
    ///
    /// ```
    /// use lukaripe::{Layout, Working};
    /// use std::num::NonZeroU64;
    ///
    /// let mut packed = Working::begin(None, NonZeroU64::new(2))?;
    /// packed.add(Layout::of::<u8>())?;
    /// packed.add(Layout::of::<u32>())?;
    /// assert_eq!(packed.layout().size(), Some(6));
    /// # Ok::<(), lukaripe::Refusal>(())
    /// ```
    ///
    /// # Errors
    ///
    /// [`Refusal::AlignNotPowerOfTwo`] or [`Refusal::RoundingWordZero`] for the layout so far, then for the member;
    /// then [`Refusal::PackingNotPowerOfTwo`], [`Refusal::AlignAboveMax`], [`Refusal::MemberAfterTrailing`],
    /// [`Refusal::RoundingPassesMax`], [`Refusal::MemberPassesMax`]. With any of them nothing has changed.
    pub fn add(&mut self, field: Layout) -> Result<()> {
        let packed = or_zero(self.repr_packed);
        self.lend(|working| exports::lukaripe_working_add(working, field.words(), packed))
    }

    /// Adds a member by its record.
    ///
    /// ```
    /// use lukaripe::{Layout, Refusal, Scalar, Working};
    ///
    /// let record = Layout::scalar(Scalar::U32).to_bytes()?;
    /// let mut template = Working::begin(None, None)?;
    /// template.add_record(&record)?;
    /// assert_eq!(template.add_record(&record[1..]), Err(Refusal::RecordLength));
    /// assert_eq!(template.layout().size(), Some(4));
    /// # Ok::<(), Refusal>(())
    /// ```
    ///
    /// # Errors
    ///
    /// Those of [`Working::add`], where the member is tested as a record: [`Refusal::RecordLength`], [`Refusal::Kind`],
    /// [`Refusal::AlignNotPowerOfTwo`], then [`Refusal::FixedRecord`] or [`Refusal::RoundingWordZero`], at 32 bits then
    /// [`Refusal::NumberPassesWidth`]. With any of them nothing has changed.
    pub fn add_record(&mut self, record: &[u8]) -> Result<()> {
        let packed = or_zero(self.repr_packed);
        // SAFETY: the bytes are lent for the call.
        self.lend(|working| unsafe {
            exports::lukaripe_working_add_record(working, record.as_ptr(), record.len(), packed)
        })
    }

    /// The members so far, before the final padding.
    ///
    /// ```
    /// use lukaripe::{Layout, Working};
    ///
    /// let mut template = Working::begin(None, None)?;
    /// template.add(Layout::of::<u32>())?;
    /// template.add(Layout::of::<u8>())?;
    /// assert_eq!(template.layout().size(), Some(5));
    /// # Ok::<(), lukaripe::Refusal>(())
    /// ```
    pub const fn layout(&self) -> Layout {
        self.layout
    }

    /// The struct that these members make, with its final padding. More may be added after it was asked for.
    ///
    /// ```
    /// use lukaripe::{Layout, Working};
    ///
    /// let mut template = Working::begin(None, None)?;
    /// template.add(Layout::of::<u32>())?;
    /// template.add(Layout::of::<u8>())?;
    /// assert_eq!(template.padded()?.size(), Some(8));
    /// template.add(Layout::of::<u8>())?;
    /// assert_eq!(template.layout().size(), Some(6));
    /// # Ok::<(), lukaripe::Refusal>(())
    /// ```
    ///
    /// # Errors
    ///
    /// Those of [`Layout::pad_to_align`]; of one that was begun here, [`Refusal::RoundingPassesMax`] alone.
    pub fn padded(&self) -> Result<Layout> {
        self.layout.pad_to_align()
    }

    /// Lends the words of the layout. What they hold afterwards is the layout, on a refusal too, which changes none.
    fn lend(&mut self, add: impl FnOnce(&mut Words<6>) -> u64) -> Result<()> {
        let mut words = self.layout.words();
        let refusal = add(&mut words);
        self.layout = Layout::from_words(words.0);
        match refusal {
            0 => Ok(()),
            number => Err(Refusal::told(number)),
        }
    }
}
