//! All short member lists, for a test bench.

use crate::exports;
#[cfg(doc)]
use crate::Refusal;
use crate::Result;

/// The greatest length of the lists.
pub const LONGEST_LIST: u64 = 6;

/// The bytes of a case: the length of the list, the packing or 0, and six scalar codes, of which the unused ones are
/// 255.
pub const CASE_LENGTH: usize = 8;

/// The bytes of all cases of up to [`LONGEST_LIST`] members.
pub const CASES_LENGTH: usize = 218_440;

/// Writes every list of up to `longest` members, each under each packing of none, 1, 2, 4 and 8, to the front of `out`,
/// and gives the number of bytes written. Bytes behind the last case stay as they are.
///
/// Shorter lists come first, then by code from the left, then by packing; nothing is missing or occurs twice.
///
/// ```
/// use lukaripe::{write_cases, Refusal};
///
/// let mut out = [0; 201];
/// assert_eq!(write_cases(1, &mut out)?, 200);
/// assert_eq!(out[..8], [0, 0, 255, 255, 255, 255, 255, 255]); // no member, no packing
/// assert_eq!(out[40..48], [1, 0, 0, 255, 255, 255, 255, 255]); // u8, no packing
/// assert_eq!(out[192..], [1, 8, 3, 255, 255, 255, 255, 255, 0]); // u64, packing 8, and a byte behind all
/// assert_eq!(write_cases(1, &mut out[..199]), Err(Refusal::CasesShort));
/// assert_eq!(write_cases(7, &mut []), Err(Refusal::ListsTooLong));
/// # Ok::<(), Refusal>(())
/// ```
///
/// # Errors
///
/// [`Refusal::ListsTooLong`], then [`Refusal::CasesShort`]; nothing is written then.
pub fn write_cases(longest: u64, out: &mut [u8]) -> Result<usize> {
    // SAFETY: the bytes are as many as said.
    let told = unsafe { exports::lukaripe_write_cases(longest, out.as_mut_ptr(), out.len()) };
    told.number().map(|written| written as usize)
}
