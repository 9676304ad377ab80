//! Lists of members.

use super::exports;
use super::layout::or_zero;
use super::shapes::Placed as Composed;
#[cfg(doc)]
use super::Refusal;
use super::{Layout, NonZeroWord, Refused, Result, Word, RECORD_LENGTH};
use alloc::vec;
use alloc::vec::Vec;

/// The layout of a `repr(C)` struct: its members one after the other, and the final padding.
///
/// `repr_align` is the number of `repr(align(..))` and `repr_packed` that of `repr(packed(..))`, if it is asked for.
/// Both may be, and members may have alignment modifiers: [`for_repr_c_struct_strict`] refuses what the Reference
/// forbids.
///
/// ```
/// use lukaripe::{for_repr_c_struct, Layout, Refusal, Refused};
/// use std::num::NonZeroU64;
///
/// let [id, kind] = [Layout::of::<u32>(), Layout::of::<u8>()];
/// let text = Layout::of_slice::<u8>();
///
/// assert_eq!(for_repr_c_struct(None, None, &[id, kind])?.size(), Some(8));
/// assert_eq!(for_repr_c_struct(NonZeroU64::new(16), None, &[id, kind])?.size(), Some(16));
/// assert_eq!(for_repr_c_struct(None, NonZeroU64::new(1), &[id, kind])?.size(), Some(5));
///
/// let message = for_repr_c_struct(None, None, &[id, kind, text])?;
/// assert_eq!(message.trailing().unwrap().offset, 5);
///
/// let refused = Refused { refusal: Refusal::MemberAfterTrailing, place: 2 };
/// assert_eq!(for_repr_c_struct(None, None, &[id, text, kind]), Err(refused));
/// # Ok::<(), Refused>(())
/// ```
///
/// # Errors
///
/// - At 0: [`Refusal::AlignNotPowerOfTwo`] for `repr_align`.
/// - Then for each member in turn, at its index: [`Refusal::AlignNotPowerOfTwo`] or [`Refusal::RoundingWordZero`] for
///   the member itself, then [`Refusal::PackingNotPowerOfTwo`], [`Refusal::AlignAboveMax`],
///   [`Refusal::MemberAfterTrailing`], [`Refusal::RoundingPassesMax`], [`Refusal::MemberPassesMax`].
/// - Then at the number of members: [`Refusal::RoundingPassesMax`] for the final padding.
pub fn for_repr_c_struct(
    repr_align: Option<NonZeroWord>,
    repr_packed: Option<NonZeroWord>,
    members: &[Layout],
) -> Result<Layout, Refused> {
    for_repr_c_struct_records(repr_align, repr_packed, records(members).as_flattened().as_flattened())
}

/// [`for_repr_c_struct`] of members that stand as records, end to end.
///
/// ```
/// use lukaripe::{for_repr_c_struct, for_repr_c_struct_records, Layout};
///
/// let members = [Layout::of::<u32>(), Layout::of::<u8>(), Layout::of_slice::<u8>()];
/// let mut file = Vec::new();
/// for member in members {
///     file.extend(member.to_bytes()?);
/// }
/// assert_eq!(for_repr_c_struct_records(None, None, &file)?, for_repr_c_struct(None, None, &members)?);
/// # Ok::<(), lukaripe::Refused>(())
/// ```
///
/// # Errors
///
/// [`Refusal::RecordLength`] at 0, then those of [`for_repr_c_struct`], where a member is tested as a record:
/// [`Refusal::Kind`], [`Refusal::AlignNotPowerOfTwo`], then [`Refusal::FixedRecord`] or [`Refusal::RoundingWordZero`],
/// at 32 bits then [`Refusal::NumberPassesWidth`].
pub fn for_repr_c_struct_records(
    repr_align: Option<NonZeroWord>,
    repr_packed: Option<NonZeroWord>,
    members: &[u8],
) -> Result<Layout, Refused> {
    let (align, packed) = (or_zero(repr_align), or_zero(repr_packed));
    // SAFETY: the bytes are lent for the call.
    let told = unsafe { exports::lukaripe_for_repr_c_struct(align, packed, members.as_ptr(), members.len()) };
    Composed::from(told).layout()
}

/// [`for_repr_c_struct`] of what the Rust Reference allows: it forbids an alignment and a packing on one type, and a
/// type with an alignment modifier inside a packed one, at any depth.
///
/// What is refused by neither is answered, or refused, as [`for_repr_c_struct`] does.
///
/// ```
/// use lukaripe::{for_repr_c_struct, for_repr_c_struct_strict, Layout, Refusal, Refused};
/// use std::num::NonZeroU64;
///
/// let [one, four] = [NonZeroU64::new(1), NonZeroU64::new(4)];
/// let id = Layout::of::<u32>();
///
/// // #[repr(C, align(4))] struct Head { id: u32 }
/// let head = for_repr_c_struct_strict(four, None, &[id])?;
/// // #[repr(C)] struct Message { id: u32, head: Head }
/// let message = for_repr_c_struct_strict(None, None, &[id, head])?;
/// assert_eq!(message, for_repr_c_struct(None, None, &[id, head])?);
///
/// // #[repr(C, align(4), packed(1))] struct Both { id: u32 }, which rustc refuses by E0587
/// let refused = Refused { refusal: Refusal::AlignAndPacked, place: 0 };
/// assert_eq!(for_repr_c_struct_strict(four, one, &[id]), Err(refused));
/// assert_eq!(refused.refusal.number(), 49);
///
/// // #[repr(C, packed(1))] struct Outer { id: u32, message: Message }, which rustc refuses by E0588
/// let refused = Refused { refusal: Refusal::AlignModifierInPacked, place: 1 };
/// assert_eq!(for_repr_c_struct_strict(None, one, &[id, message]), Err(refused));
/// assert_eq!(refused.refusal.number(), 50);
/// assert!(for_repr_c_struct(None, one, &[id, message]).is_ok());
/// # Ok::<(), Refused>(())
/// ```
///
/// # Errors
///
/// - At 0: [`Refusal::AlignNotPowerOfTwo`] for `repr_align`.
/// - Then at 0: [`Refusal::AlignAndPacked`] where both are asked for, whatever their numbers are.
/// - Then for each member in turn, at its index: [`Refusal::AlignNotPowerOfTwo`] or [`Refusal::RoundingWordZero`] for
///   the member itself, then [`Refusal::AlignModifierInPacked`] where a packing is asked for, whatever its number is,
///   then [`Refusal::PackingNotPowerOfTwo`], [`Refusal::AlignAboveMax`], [`Refusal::MemberAfterTrailing`],
///   [`Refusal::RoundingPassesMax`], [`Refusal::MemberPassesMax`].
/// - Then at the number of members: [`Refusal::RoundingPassesMax`] for the final padding.
pub fn for_repr_c_struct_strict(
    repr_align: Option<NonZeroWord>,
    repr_packed: Option<NonZeroWord>,
    members: &[Layout],
) -> Result<Layout, Refused> {
    for_repr_c_struct_strict_records(repr_align, repr_packed, records(members).as_flattened().as_flattened())
}

/// [`for_repr_c_struct_strict`] of members that stand as records, end to end.
///
/// ```
/// use lukaripe::{for_repr_c_struct_strict_records, Layout, Refusal, Refused, RECORD_LENGTH};
/// use std::num::NonZeroU64;
///
/// let one = NonZeroU64::new(1);
/// let mut file = Layout::of::<u8>().to_bytes()?.to_vec();
/// file.extend(Layout::new_zst(one)?.to_bytes()?);
///
/// // The second has an alignment modifier.
/// let refused = Refused { refusal: Refusal::AlignModifierInPacked, place: 1 };
/// assert_eq!(for_repr_c_struct_strict_records(None, one, &file), Err(refused));
/// assert_eq!(for_repr_c_struct_strict_records(None, one, &file[..RECORD_LENGTH])?.size(), Some(1));
/// # Ok::<(), Refused>(())
/// ```
///
/// # Errors
///
/// [`Refusal::RecordLength`] at 0, then those of [`for_repr_c_struct_strict`], where a member is tested as a record:
/// [`Refusal::Kind`], [`Refusal::AlignNotPowerOfTwo`], then [`Refusal::FixedRecord`] or [`Refusal::RoundingWordZero`],
/// at 32 bits then [`Refusal::NumberPassesWidth`].
pub fn for_repr_c_struct_strict_records(
    repr_align: Option<NonZeroWord>,
    repr_packed: Option<NonZeroWord>,
    members: &[u8],
) -> Result<Layout, Refused> {
    let (align, packed) = (or_zero(repr_align), or_zero(repr_packed));
    // SAFETY: the bytes are lent for the call.
    let told = unsafe { exports::lukaripe_for_repr_c_struct_strict(align, packed, members.as_ptr(), members.len()) };
    Composed::from(told).layout()
}

/// A `repr(C)` struct, and where its members stand.
#[derive(Clone, Debug, PartialEq, Eq, Hash)]
pub struct Placed {
    /// The struct, with the final padding, as [`for_repr_c_struct`] gives it.
    pub layout: Layout,
    /// Where each member starts. Of one that ends in a run of elements too: the run itself starts at the offset of
    /// [`Layout::trailing`].
    pub places: Vec<Word>,
    /// The bytes between each member and the end of the one before it. The final padding stands in none.
    pub gaps: Vec<Word>,
}

/// [`for_repr_c_struct`], with the place of each member and the gap before it.
///
/// A place is the next multiple of the member's alignment, or of the packing where that is lower, and what follows a
/// member does not move it. The gaps, the sizes of the members and the final padding add up to the size of a fixed
/// struct.
///
/// ```
/// use lukaripe::{for_repr_c_struct_places, Layout, Refusal, Refused, Scalar};
/// use std::num::NonZeroU64;
///
/// let members = [Scalar::U8, Scalar::U64, Scalar::U16].map(Layout::scalar);
/// let placed = for_repr_c_struct_places(None, None, &members)?;
/// assert_eq!(placed.places, [0, 8, 16]);
/// assert_eq!(placed.gaps, [0, 7, 0]);
/// // The last member ends at 18. The other 6 bytes are the final padding, which is no gap.
/// assert_eq!(placed.layout.size(), Some(24));
///
/// let packed = for_repr_c_struct_places(None, NonZeroU64::new(2), &members)?;
/// assert_eq!((packed.places, packed.gaps), (vec![0, 2, 10], vec![0, 1, 0]));
///
/// // struct Name { length: u32, flag: u8, text: [u16] }, and struct File { kind: u8, name: Name }: the name starts at
/// // 4, its text at 10.
/// let [u8, u32] = [Scalar::U8, Scalar::U32].map(Layout::scalar);
/// let name = for_repr_c_struct_places(None, None, &[u32, u8, Layout::of_slice::<u16>()])?;
/// assert_eq!((name.places, name.gaps), (vec![0, 4, 6], vec![0, 0, 1]));
/// let file = for_repr_c_struct_places(None, None, &[u8, name.layout])?;
/// assert_eq!((file.places, file.gaps), (vec![0, 4], vec![0, 3]));
/// assert_eq!(file.layout.trailing().unwrap().offset, 10);
///
/// let refused = Refused { refusal: Refusal::MemberAfterTrailing, place: 1 };
/// assert_eq!(for_repr_c_struct_places(None, None, &[name.layout, u8]), Err(refused));
/// # Ok::<(), Refused>(())
/// ```
///
/// # Errors
///
/// Those of [`for_repr_c_struct`].
pub fn for_repr_c_struct_places(
    repr_align: Option<NonZeroWord>,
    repr_packed: Option<NonZeroWord>,
    members: &[Layout],
) -> Result<Placed, Refused> {
    for_repr_c_struct_places_records(repr_align, repr_packed, records(members).as_flattened().as_flattened())
}

/// [`for_repr_c_struct_places`] of members that stand as records, end to end.
///
/// ```
/// use lukaripe::{for_repr_c_struct_places_records, Layout, Refusal, Refused, Scalar};
///
/// let mut file = Layout::scalar(Scalar::U8).to_bytes()?.to_vec();
/// file.extend(Layout::scalar(Scalar::U32).to_bytes()?);
/// let placed = for_repr_c_struct_places_records(None, None, &file)?;
/// assert_eq!((placed.places, placed.gaps), (vec![0, 4], vec![0, 3]));
/// assert_eq!(for_repr_c_struct_places_records(None, None, &file[1..]), Err(Refused::from(Refusal::RecordLength)));
/// # Ok::<(), Refused>(())
/// ```
///
/// # Errors
///
/// Those of [`for_repr_c_struct_records`].
pub fn for_repr_c_struct_places_records(
    repr_align: Option<NonZeroWord>,
    repr_packed: Option<NonZeroWord>,
    members: &[u8],
) -> Result<Placed, Refused> {
    let count = members.len() / RECORD_LENGTH;
    let (mut places, mut gaps) = (vec![0; count], vec![0; count]);
    let layout = for_repr_c_struct_places_into(repr_align, repr_packed, members, &mut places, &mut gaps)?;
    Ok(Placed { layout, places, gaps })
}

/// [`for_repr_c_struct_places_records`], which writes to slices that are lent and allocates nothing.
///
/// ```
/// use lukaripe::{for_repr_c_struct_places_into, Layout, Refusal, Refused, Scalar};
///
/// let mut file = Layout::scalar(Scalar::U8).to_bytes()?.to_vec();
/// file.extend(Layout::scalar(Scalar::U32).to_bytes()?);
///
/// let [mut places, mut gaps] = [[77; 3]; 2];
/// let layout = for_repr_c_struct_places_into(None, None, &file, &mut places[..2], &mut gaps[..2])?;
/// assert_eq!(layout.size(), Some(8));
/// assert_eq!((places, gaps), ([0, 4, 77], [0, 3, 77]));
///
/// // Each has one number for each member, neither fewer nor more.
/// let refused = Refused { refusal: Refusal::SliceLength, place: 0 };
/// assert_eq!(for_repr_c_struct_places_into(None, None, &file, &mut places, &mut gaps[..2]), Err(refused));
/// assert_eq!(for_repr_c_struct_places_into(None, None, &file, &mut places[..2], &mut gaps[..1]), Err(refused));
/// assert_eq!(refused.refusal.number(), 24);
///
/// // A refusal leaves them as they were, also one that comes last: here the final padding has no room.
/// file.extend(Layout::for_type(u64::MAX - 9, 1)?.to_bytes()?);
/// [places, gaps] = [[77; 3]; 2];
/// let refused = Refused { refusal: Refusal::RoundingPassesMax, place: 3 };
/// assert_eq!(for_repr_c_struct_places_into(None, None, &file, &mut places, &mut gaps), Err(refused));
/// assert_eq!((places, gaps), ([77; 3], [77; 3]));
/// # Ok::<(), Refused>(())
/// ```
///
/// # Errors
///
/// [`Refusal::RecordLength`] at 0; [`Refusal::SliceLength`] at 0 where `places` or `gaps` has another length than there
/// are members; then those of [`for_repr_c_struct_records`]. With any of them nothing is written.
pub fn for_repr_c_struct_places_into(
    repr_align: Option<NonZeroWord>,
    repr_packed: Option<NonZeroWord>,
    members: &[u8],
    places: &mut [Word],
    gaps: &mut [Word],
) -> Result<Layout, Refused> {
    let (align, packed) = (or_zero(repr_align), or_zero(repr_packed));
    // SAFETY: bytes and numbers are lent for the call, and the two slices are this call's alone.
    let told = unsafe {
        exports::lukaripe_for_repr_c_struct_places(
            align,
            packed,
            members.as_ptr(),
            members.len(),
            places.as_mut_ptr(),
            places.len(),
            gaps.as_mut_ptr(),
            gaps.len(),
        )
    };
    Composed::from(told).layout()
}

/// [`for_repr_c_struct`] without the final padding.
///
/// ```
/// use lukaripe::{compose, Layout, Refusal, Refused, Scalar};
///
/// let [number, byte] = [Layout::scalar(Scalar::U32), Layout::scalar(Scalar::U8)];
/// let layout = compose(None, None, &[number, byte])?;
/// assert_eq!(layout.size(), Some(5));
/// assert_eq!(layout.pad_to_align()?.size(), Some(8));
///
/// // A member that is itself refused is refused in its turn.
/// let odd = Layout { align: 3, ..byte };
/// let refused = Refused { refusal: Refusal::AlignNotPowerOfTwo, place: 1 };
/// assert_eq!(compose(None, None, &[number, odd]), Err(refused));
/// # Ok::<(), Refused>(())
/// ```
///
/// # Errors
///
/// Those of [`for_repr_c_struct`] but for the final padding.
pub fn compose(
    repr_align: Option<NonZeroWord>,
    repr_packed: Option<NonZeroWord>,
    members: &[Layout],
) -> Result<Layout, Refused> {
    compose_records(repr_align, repr_packed, records(members).as_flattened().as_flattened())
}

/// [`compose`] of members that stand as records, end to end.
///
/// ```
/// use lukaripe::{compose_records, Layout, Refusal, Refused, Scalar};
///
/// let record = Layout::scalar(Scalar::U8).to_bytes()?;
/// assert_eq!(compose_records(None, None, &record)?.size(), Some(1));
/// assert_eq!(compose_records(None, None, &record[1..]), Err(Refused::from(Refusal::RecordLength)));
/// # Ok::<(), Refused>(())
/// ```
///
/// # Errors
///
/// Those of [`for_repr_c_struct_records`] but for the final padding.
pub fn compose_records(
    repr_align: Option<NonZeroWord>,
    repr_packed: Option<NonZeroWord>,
    members: &[u8],
) -> Result<Layout, Refused> {
    let (align, packed) = (or_zero(repr_align), or_zero(repr_packed));
    // SAFETY: the bytes are lent for the call.
    let told = unsafe { exports::lukaripe_compose(align, packed, members.as_ptr(), members.len()) };
    Composed::from(told).layout()
}

/// The records of members, also of those that are refused, so that they are refused in their turn.
fn records(members: &[Layout]) -> Vec<[[u8; 8]; 6]> {
    let record = |member: &Layout| member.words().0.map(|word| u64::from(word).to_le_bytes());
    members.iter().map(record).collect()
}
