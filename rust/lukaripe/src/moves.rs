//! The two forms of records, and lists of records that are moved from one to the other.

use crate::exports;
use crate::shapes::Moved;
#[cfg(doc)]
use crate::Refusal;
use crate::{Refused, Result};
use alloc::vec;
use alloc::vec::Vec;

/// The bytes of a record: six little-endian words, of 64 bits at either width.
pub const RECORD_LENGTH: usize = 48;

/// The bytes of a short record: three words, then the rounding word in 4 bytes, the power of two that the alignment is,
/// the kind, and two bytes that are 0, all little-endian.
pub const SHORT_RECORD_LENGTH: usize = 32;

/// Writes the short forms of records that stand end to end to the front of `out`, and gives the number of bytes
/// written. Behind them `out` is as it was, and on a refusal all of it is.
///
/// ```
/// use lukaripe::{records_from_short, records_to_short, Layout, Refusal, Refused, Scalar};
///
/// let layouts = [Layout::scalar(Scalar::U32), Layout::of_slice::<u16>(), Layout::of::<[u8; 3]>()];
/// let mut file = Vec::new();
/// for layout in layouts {
///     file.extend(layout.to_bytes()?);
/// }
///
/// // There and back.
/// let mut short = [0xa5; 100];
/// assert_eq!(records_to_short(&file, &mut short)?, 3 * 32);
/// assert_eq!(short[..32], layouts[0].to_short_bytes()?);
/// assert_eq!(short[96..], [0xa5; 4]);
/// let mut again = [0; 3 * 48];
/// assert_eq!(records_from_short(&short[..96], &mut again)?, 3 * 48);
/// assert_eq!(again[..], file);
///
/// // The whole list or nothing: the kind of the last record is none.
/// file[2 * 48 + 8] = 8;
/// short = [0xa5; 100];
/// assert_eq!(records_to_short(&file, &mut short), Err(Refused { refusal: Refusal::Kind, place: 2 }));
/// assert_eq!(short, [0xa5; 100]);
/// # Ok::<(), Refused>(())
/// ```
///
/// # Errors
///
/// - At 0: [`Refusal::RecordLength`] where `records` is no whole number of records.
/// - Then at 0: [`Refusal::OutputShort`] where `out` has less than [`SHORT_RECORD_LENGTH`] bytes for each.
/// - Then for each record in turn, at its index: [`Refusal::Kind`], [`Refusal::AlignNotPowerOfTwo`], then
///   [`Refusal::FixedRecord`] or [`Refusal::RoundingWordZero`], then [`Refusal::WordAboveShort`].
pub fn records_to_short(records: &[u8], out: &mut [u8]) -> Result<usize, Refused> {
    // SAFETY: the bytes are lent for the call, and those of `out` are its alone.
    let told =
        unsafe { exports::lukaripe_records_to_short(records.as_ptr(), records.len(), out.as_mut_ptr(), out.len()) };
    Moved::from(told).written()
}

/// [`records_to_short`] into a vector of the length that it takes.
///
/// ```
/// use lukaripe::{records_to_short_vec, Layout, Refusal, Refused};
///
/// let mut file = Layout::of::<u64>().to_bytes()?.to_vec();
/// assert_eq!(records_to_short_vec(&file)?, Layout::of::<u64>().to_short_bytes()?);
/// file.pop();
/// assert_eq!(records_to_short_vec(&file), Err(Refused::from(Refusal::RecordLength)));
/// # Ok::<(), Refused>(())
/// ```
///
/// # Errors
///
/// Those of [`records_to_short`] but [`Refusal::OutputShort`].
pub fn records_to_short_vec(records: &[u8]) -> Result<Vec<u8>, Refused> {
    let mut out = vec![0; records.len() / RECORD_LENGTH * SHORT_RECORD_LENGTH];
    records_to_short(records, &mut out)?;
    Ok(out)
}

/// Writes the records of short ones that stand end to end to the front of `out`, and gives the number of bytes written.
/// Behind them `out` is as it was, and on a refusal all of it is.
///
/// ```
/// use lukaripe::{records_from_short, Layout, Refusal, Refused};
///
/// let short = Layout::of_slice::<u64>().to_short_bytes()?.repeat(2);
/// let mut file = [0xa5; 100];
/// assert_eq!(records_from_short(&short, &mut file)?, 96);
/// assert_eq!(file[..48], Layout::of_slice::<u64>().to_bytes()?);
/// assert_eq!(file[96..], [0xa5; 4]);
///
/// // One byte less than the two take.
/// let refused = Refused { refusal: Refusal::OutputShort, place: 0 };
/// assert_eq!(records_from_short(&short, &mut file[..95]), Err(refused));
/// # Ok::<(), Refused>(())
/// ```
///
/// # Errors
///
/// - At 0: [`Refusal::RecordLength`] where `records` is no whole number of short records.
/// - Then at 0: [`Refusal::OutputShort`] where `out` has less than [`RECORD_LENGTH`] bytes for each.
/// - Then for each record in turn, at its index: [`Refusal::Kind`], [`Refusal::SpareOrPower`], then
///   [`Refusal::FixedRecord`] or [`Refusal::RoundingWordZero`].
pub fn records_from_short(records: &[u8], out: &mut [u8]) -> Result<usize, Refused> {
    // SAFETY: the bytes are lent for the call, and those of `out` are its alone.
    let told =
        unsafe { exports::lukaripe_records_from_short(records.as_ptr(), records.len(), out.as_mut_ptr(), out.len()) };
    Moved::from(told).written()
}

/// [`records_from_short`] into a vector of the length that it takes.
///
/// ```
/// use lukaripe::{records_from_short_vec, records_to_short_vec, Layout, Refusal, Refused};
///
/// let file = [Layout::of::<u64>().to_bytes()?, Layout::of_slice::<u8>().to_bytes()?].concat();
/// let mut short = records_to_short_vec(&file)?;
/// assert_eq!(records_from_short_vec(&short)?, file);
///
/// // The spare bytes end a record.
/// short[63] = 1;
/// assert_eq!(records_from_short_vec(&short), Err(Refused { refusal: Refusal::SpareOrPower, place: 1 }));
/// # Ok::<(), Refused>(())
/// ```
///
/// # Errors
///
/// Those of [`records_from_short`] but [`Refusal::OutputShort`].
pub fn records_from_short_vec(records: &[u8]) -> Result<Vec<u8>, Refused> {
    let mut out = vec![0; records.len() / SHORT_RECORD_LENGTH * RECORD_LENGTH];
    records_from_short(records, &mut out)?;
    Ok(out)
}
