//! Descriptions with the member counts of all structs in two bytes, or in one.

use super::exports;
use super::shapes::Moved;
#[cfg(doc)]
use super::{Layout, Refusal, TAG_LONG_STRUCT, TAG_STRUCT};
use super::{Refused, Result};
use alloc::vec;
use alloc::vec::Vec;

/// The bytes of the shortest struct, which has no members: the tag, alignment, packing and a count of one byte.
const SHORTEST_STRUCT: usize = 4;

/// Writes the description with every struct under [`TAG_LONG_STRUCT`] to the front of `out`, and gives the number of
/// bytes written. It is read as the same layout. Behind it `out` is as it was, and on a refusal all of it is.
///
/// ```
/// use lukaripe::{lengthen_counts, Layout, Refusal, Refused, TAG_ARRAY, TAG_LONG_STRUCT, TAG_STRUCT};
///
/// // [Inner; 17] of #[repr(C)] struct Inner { kind: u8, id: u32 }. The count is no tag.
/// let short = [TAG_ARRAY, 17, 0, 0, 0, TAG_STRUCT, 0, 0, 2, 0, 2];
/// let mut out = [0xa5; 16];
/// assert_eq!(lengthen_counts(&short, &mut out)?, 12);
/// assert_eq!(out[..12], [TAG_ARRAY, 17, 0, 0, 0, TAG_LONG_STRUCT, 0, 0, 2, 0, 0, 2]);
/// assert_eq!(out[12..], [0xa5; 4]);
/// assert_eq!(Layout::read(&out[..12])?, Layout::read(&short)?);
///
/// // What is not read is not rewritten, and it all must have room.
/// let refused = Refused { refusal: Refusal::DescriptionCut, place: 10 };
/// assert_eq!(lengthen_counts(&short[..10], &mut out), Err(refused));
/// let refused = Refused { refusal: Refusal::RewriteShort, place: 0 };
/// assert_eq!(lengthen_counts(&short, &mut out[..11]), Err(refused));
/// # Ok::<(), Refused>(())
/// ```
///
/// # Errors
///
/// Those of [`Layout::read`]; then at 0 [`Refusal::RewriteShort`], also where the description stays as it is.
pub fn lengthen_counts(description: &[u8], out: &mut [u8]) -> Result<usize, Refused> {
    let (from, len, to, out_len) = (description.as_ptr(), description.len(), out.as_mut_ptr(), out.len());
    // SAFETY: the bytes are lent for the call, and those of `out` are its alone.
    Moved::from(unsafe { exports::lukaripe_lengthen_counts(from, len, to, out_len) }).written()
}

/// [`lengthen_counts`] into a vector of the length that it takes.
///
/// ```
/// use lukaripe::{lengthen_counts_vec, shorten_counts_vec, Refused, TAG_LONG_STRUCT, TAG_STRUCT};
///
/// // A description without long structs goes there and back to the same bytes.
/// let description = [TAG_STRUCT, 0, 1, 1, TAG_STRUCT, 4, 0, 1, 3];
/// let long = lengthen_counts_vec(&description)?;
/// assert_eq!(long, [TAG_LONG_STRUCT, 0, 1, 1, 0, TAG_LONG_STRUCT, 4, 0, 1, 0, 3]);
/// assert_eq!(shorten_counts_vec(&long)?, description);
/// # Ok::<(), Refused>(())
/// ```
///
/// # Errors
///
/// Those of [`Layout::read`].
pub fn lengthen_counts_vec(description: &[u8]) -> Result<Vec<u8>, Refused> {
    to_vec(lengthen_counts, description, description.len() + description.len() / SHORTEST_STRUCT)
}

/// Writes the description with every struct under [`TAG_STRUCT`] to the front of `out`, and gives the number of bytes
/// written. It is read as the same layout. Behind it `out` is as it was, and on a refusal all of it is.
///
/// ```
/// use lukaripe::{shorten_counts, Refusal, Refused, TAG_LONG_STRUCT, TAG_SLICE, TAG_STRUCT};
///
/// let mut out = [0; 7];
/// let long = [TAG_SLICE, TAG_LONG_STRUCT, 0, 0, 2, 0, 0, 2];
/// assert_eq!(shorten_counts(&long, &mut out)?, 7);
/// assert_eq!(out, [TAG_SLICE, TAG_STRUCT, 0, 0, 2, 0, 2]);
///
/// // 300 members are too many for a count of one byte; that is said before any room is asked for.
/// let mut long = vec![TAG_SLICE, TAG_LONG_STRUCT, 0, 0];
/// long.extend(300u16.to_le_bytes());
/// long.extend([0; 300]);
/// let refused = Refused { refusal: Refusal::CountAboveByte, place: 1 };
/// assert_eq!(shorten_counts(&long, &mut out), Err(refused));
/// # Ok::<(), Refused>(())
/// ```
///
/// # Errors
///
/// Those of [`Layout::read`]; then [`Refusal::CountAboveByte`], at the first tag whose count is above 255; then at 0
/// [`Refusal::RewriteShort`], also where the description stays as it is.
pub fn shorten_counts(description: &[u8], out: &mut [u8]) -> Result<usize, Refused> {
    let (from, len, to, out_len) = (description.as_ptr(), description.len(), out.as_mut_ptr(), out.len());
    // SAFETY: the bytes are lent for the call, and those of `out` are its alone.
    Moved::from(unsafe { exports::lukaripe_shorten_counts(from, len, to, out_len) }).written()
}

/// [`shorten_counts`] into a vector of the length that it takes.
///
/// ```
/// use lukaripe::{shorten_counts_vec, Layout, Refused, TAG_LONG_STRUCT};
///
/// let long = [TAG_LONG_STRUCT, 0, 0, 2, 0, 0, 2];
/// let short = shorten_counts_vec(&long)?;
/// assert_eq!(short.len(), 6);
/// assert_eq!(Layout::read(&short)?, Layout::read(&long)?);
/// # Ok::<(), Refused>(())
/// ```
///
/// # Errors
///
/// Those of [`shorten_counts`] but [`Refusal::RewriteShort`].
pub fn shorten_counts_vec(description: &[u8]) -> Result<Vec<u8>, Refused> {
    to_vec(shorten_counts, description, description.len())
}

/// What is written into this much room.
fn to_vec(
    rewrite: fn(&[u8], &mut [u8]) -> Result<usize, Refused>,
    description: &[u8],
    room: usize,
) -> Result<Vec<u8>, Refused> {
    let mut out = vec![0; room];
    let written = rewrite(description, &mut out)?;
    out.truncate(written);
    Ok(out)
}
